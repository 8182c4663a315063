#!/usr/bin/env python3
"""How long 1,000 messages of 1,000 bytes take to usrsctp, in virtual time, and how many packets of them are sent again.

figures.py PEER [--model] [--program P] [--seeds N] [--buffer BYTES] [--chunks N] [WORD ..]: PEER is the built
peer.c, or `-` if there is none: then the model receives. `sctp-end` sends, with these words behind MODE, or the
model; usrsctp does beside it. 50 ms one way, without a limit of the rate, and over 10 Mbit/s with a drop-tail
queue of 32 packets; 0, 1 and 5 percent of the packets lost each way; packets of at most 1,200 bytes, a receive
buffer of 1,048,576. Of these messages usrsctp then holds 512 after a missing one, and drops others: it holds so
many chunks (--chunks), and counts 256 bytes a chunk more than it advertised. It holds all of them with
--buffer 1317012 --chunks 1048576. Of the seeds it prints the middle run and the slowest. Time is counted from the
opening, in which nothing is lost, until all messages have arrived. At the end it says whether all is as wanted
with these words: the middle within what is wanted, the slowest within 1.5 times that, and with congestion-control
the bytes in flight at most 4 packets more after one that arrives. Status 0 if so, else 1.
"""

import argparse
import os
import random
import statistics
import sys

import path
from sides import BUFFER, PACKET, Ours, Usrsctp

PROGRAM = os.path.join(os.path.dirname(os.path.abspath(__file__)), '..', '..', 'sctp-end')
MESSAGES, DELAY, LAST = 1_000, 50, 600_000             # milliseconds
RATE, QUEUE = 10_000_000, 32                           # bits a second, packets
COLUMNS = [(rate, lost) for rate in (None, RATE) for lost in (0, 1, 5)]
BURST = 4 * (PACKET - path.HEADER)
# Milliseconds for each column, and packets with data sent again; those of a word, the later ones if it has several.
WANTED = {'fast-retransmit': ((50, 900, 3_000, 40_000, 40_000, 40_000), None),
          'congestion-control': ((1_400, 6_500, 18_350, 2_500, 8_500, 18_600), (0, 40, 90, 60, 90, 120))}


class Ends:
    """Makes the endpoints of an association."""

    def __init__(self, asked):
        self.asked, self.program = asked, None if asked.model else asked.program
        self.has_usrsctp = asked.peer != '-'

    def ours(self, _):
        return Ours(self.program, self.asked.words)

    def usrsctp(self, seed):
        return Usrsctp(self.asked.peer, seed)

    def receiver(self, seed):
        return Usrsctp(self.asked.peer, 100 + seed, True, self.asked.buffer, self.asked.chunks) if self.has_usrsctp else Ours(None, listens=True)


def transfer(sender, receiver, rate, lost, seed):
    """(milliseconds until all have arrived, packets with data sent again, the most bytes in flight more after one packet)"""
    chance, network = random.Random(seed), path.Network()
    side = network.join(sender, receiver, *[path.Link(DELAY, chance, lost / 100, rate, QUEUE) for _ in range(2)])
    network.open(side)
    began = network.now
    network.go(side, sender.offer(MESSAGES))
    while receiver.came < MESSAGES and network.step(began + LAST * 1_000):
        pass
    network.close()
    took = (network.now - began) // 1_000 if receiver.came == MESSAGES else LAST
    return took, side.repeated, sender.burst


def column(sender, ends, rate, lost):
    """The runs of all seeds: (the middle time, the slowest, the middle number of repeated packets, the largest burst)"""
    runs = [transfer(sender(seed), ends.receiver(seed), rate, lost, seed) for seed in range(1, ends.asked.seeds + 1)]
    took, repeated, bursts = zip(*runs)
    return statistics.median_low(took), max(took), statistics.median_low(repeated), '-' if None in bursts else max(bursts)


def wanted_with(words):
    """What is wanted of these words: the times and the packets, each None if nothing is."""
    return next((WANTED[word] for word in reversed(list(WANTED)) if word in words), (None, None))


def named(rate, lost):
    return '%s, %d %% lost' % ('no rate' if rate is None else '%d Mbit/s, queue %d' % (rate // 1_000_000, QUEUE), lost)


def faults_of(at, found, wanted):
    """What isn't as wanted in a column, in words."""
    (middle, slowest, repeated, burst), (times, packets) = found, wanted
    said = []
    if times and (middle > times[at] or slowest > 1.5 * times[at]):
        said.append('%s: %d ms, the slowest %d, wanted %d' % (named(*COLUMNS[at]), middle, slowest, times[at]))
    if packets and repeated > packets[at]:
        said.append('%s: %d packets again, wanted %d' % (named(*COLUMNS[at]), repeated, packets[at]))
    if packets and burst != '-' and burst > BURST:
        said.append('%s: %d bytes in flight more after one packet, wanted %d' % (named(*COLUMNS[at]), burst, BURST))
    return said


def print_table(ends):
    """The table, a line for each column; what isn't as wanted."""
    wanted = times, packets = wanted_with(ends.asked.words)
    name = 'the model' if ends.asked.model else 'sctp-end'
    print('%s%s to %s; in brackets the slowest of %d runs; packets: sent again; burst: the most bytes in flight more after a packet' % (
        name, ''.join(' ' + word for word in ends.asked.words), 'usrsctp' if ends.has_usrsctp else 'the model', ends.asked.seeds))
    print('%-30s %18s %8s %8s %12s %8s %22s %8s' % ('', name + ', ms', 'packets', 'burst', 'wanted, ms', 'packets', 'usrsctp to it, ms', 'packets'))
    faults = []
    for at, (rate, lost) in enumerate(COLUMNS):
        found = column(ends.ours, ends, rate, lost)
        beside = column(ends.usrsctp, ends, rate, lost) if ends.has_usrsctp else None
        print('%-30s %18s %8d %8s %12s %8s %22s %8s' % (
            named(rate, lost), '%d (%d)' % found[:2], found[2], found[3], times[at] if times else '-', packets[at] if packets else '-',
            '%d (%d)' % beside[:2] if beside else '-', beside[2] if beside else '-'), flush=True)
        faults += faults_of(at, found, wanted)
    return faults


def main():
    parser = argparse.ArgumentParser()
    parser.add_argument('peer')
    parser.add_argument('--model', action='store_true')
    parser.add_argument('--program', default=PROGRAM)
    parser.add_argument('--seeds', type=int, default=5)
    parser.add_argument('--buffer', type=int, default=BUFFER)
    parser.add_argument('--chunks', type=int)
    parser.add_argument('words', nargs='*')
    ends = Ends(parser.parse_intermixed_args())
    faults = print_table(ends)
    print('\n'.join(faults) or ('as wanted' if wanted_with(ends.asked.words)[0] else 'nothing is wanted of these words'))
    return 1 if faults else 0


if __name__ == '__main__':
    sys.exit(main())
