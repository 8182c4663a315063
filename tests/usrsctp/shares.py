#!/usr/bin/env python3
"""What each of two associations gets of 10 Mbit/s that go through one drop-tail queue of 64 packets, in virtual time.

shares.py PEER [--model] [--program P] [--seeds N] [--seconds S] [WORD ..]: as figures.py. Each sender always has
another message of 1,000 bytes, 50 ms one way, nothing is lost but in the queue. One starts, the other one a second or two later, by the
seed; from then on what has arrived is counted, for 120 s. Two of `sctp-end` share it, and one with usrsctp, either first.
"""

import argparse
import random
import statistics
import sys

import path
from figures import BURST, DELAY, PROGRAM, RATE, Ends
from sides import LENGTH

QUEUE, SECONDS = 64, 120


def shared(first, second, ends, seed):
    """(the share of the first, the messages of both, the most bytes in flight more after one packet, of each)"""
    chance, network = random.Random(seed), path.Network()
    out = path.Link(DELAY, chance, 0, RATE, QUEUE)
    one, other = [network.join(sender(10 * seed + at), ends.receiver(10 * seed + at), out, path.Link(DELAY, chance))
                  for at, sender in enumerate((first, second))]
    network.open(one)
    network.go(one, one.endpoint.offer(None))
    late = network.now + chance.randrange(1_000_000, 2_000_000)
    while network.step(late):
        pass
    network.now = late
    network.open(other)
    network.go(other, other.endpoint.offer(None))
    before, began = one.other.endpoint.came, network.now
    while network.step(began + ends.asked.seconds * 1_000_000):
        pass
    came = one.other.endpoint.came - before, other.other.endpoint.came
    network.close()
    return came[0] / sum(came), sum(came), one.endpoint.burst, other.endpoint.burst


def print_pair(name, first, second, ends):
    runs = [shared(first, second, ends, seed) for seed in range(1, ends.asked.seeds + 1)]
    shares = sorted(run[0] for run in runs)
    rate = statistics.mean(run[1] for run in runs) * 8 * LENGTH / ends.asked.seconds / 1_000_000
    burst = max((grown for run in runs for grown in run[2:] if grown is not None), default='-')
    print('%-36s the first has %s: the middle %.2f; both %.1f Mbit/s of data; ours: at most %s bytes in flight more after one packet (4 packets: %d)' % (
        name, ', '.join('%.2f' % share for share in shares), statistics.median_low(shares), rate, burst, BURST), flush=True)


def main():
    parser = argparse.ArgumentParser()
    parser.add_argument('peer')
    parser.add_argument('--model', action='store_true')
    parser.add_argument('--program', default=PROGRAM)
    parser.add_argument('--seeds', type=int, default=5)
    parser.add_argument('--seconds', type=int, default=SECONDS)
    parser.add_argument('words', nargs='*')
    ends = Ends(parser.parse_intermixed_args())
    print('%s%s, %d s' % ('the model' if ends.asked.model else 'sctp-end', ''.join(' ' + word for word in ends.asked.words), ends.asked.seconds))
    print_pair('ours first, ours second', ends.ours, ends.ours, ends)
    if ends.has_usrsctp:
        print_pair('ours first, usrsctp second', ends.ours, ends.usrsctp, ends)
        print_pair('usrsctp first, ours second', ends.usrsctp, ends.ours, ends)
    return 0


if __name__ == '__main__':
    sys.exit(main())
