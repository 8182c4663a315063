#!/usr/bin/env python3
"""Two closings with a peer that acknowledges by a SHUTDOWN in front of its SACK, in virtual time.

closing.py [--model] [--lost PERCENT] [SEED ..]: with and without `standard-closing`, (1) the peer shuts
while a megabyte of this end's is queued, 50 ms each way, packets lost; (2) this end shuts with 450
messages of the peer's to come over 8 kbit/s, nothing lost. It prints when the end was closed, how, and
how many messages were lost. `sctp-end` runs the end, or this model. `closing.py --rows` writes small ones
of both as cases of crates/sctp_rows.
"""

import argparse
import heapq
import os
import random
import statistics
import struct
import subprocess

import end
import wire
from wire import chunk, item

HERE = os.path.dirname(os.path.abspath(__file__))
PROGRAM = os.path.join(HERE, '..', '..', 'sctp-end')
OWN_TAG, PEER_TAG, OWN_TSN, PEER_TSN = 7, 9, 100, 500
GUARD, SLOWEST = 180_000, 60_000
LIMIT, FRAGMENT, BUFFER = 1_500, 1_400, 65_536
ON_THE_WIRE = 28                       # headers of IP and UDP
DELAY, RATES, SEEDS = 50, (8_000, 8_000), [1, 2, 3, 4, 5]
QUEUED, TO_COME = (750, 1_400), (450, 1_000)       # messages of the end in (1), and of its peer in (2), and their length


class End:
    """The end, asked line by line, by the model or by the program."""

    def __init__(self, options, program=None):
        self.words = 'caller %d %d %d 1 data %s5000 5001' % (LIMIT, FRAGMENT, BUFFER, ''.join(option + ' ' for option in options))
        self.lines, self.said, self.process = [], [], None
        if program is not None:
            self.process = subprocess.Popen([program, *self.words.split(' ')], stdin=subprocess.PIPE, stdout=subprocess.PIPE, text=True, bufsize=1)
        else:
            self.session = end.Session(end.end_of([word.encode() for word in self.words.split(' ')]), self.said.append)

    def ask(self, line, note=True):
        if note:
            self.lines.append('> ' + line)
        if self.process is None:
            self.session.line(line.encode(), 0)
            return self.said[-1]
        self.process.stdin.write(line + '\n')
        return self.process.stdout.readline().rstrip('\n')

    def built(self):
        """The packets that go out now; of these builds the row shows the last, which has none."""
        packets = []
        while (answer := self.ask('build', False).split(' '))[0] == 'sent':
            packets.append(bytes.fromhex(answer[1]))
        self.lines.append('*%d build' % (len(packets) + 1) if packets else '> build')
        return packets


class Peer:
    """The peer: what it holds of this end's data and sends of its own, and how it closes."""

    def __init__(self, to_send, length):
        self.cum, self.seen, self.messages = OWN_TSN - 1, set(), set()
        self.to_send, self.length, self.sent, self.acknowledged = to_send, length, 0, 0
        self.shuts, self.closed, self.wait, self.repeat_at, self.guard_at = False, False, 1_000, None, None

    def shut(self, now):
        """It shuts, by a SHUTDOWN."""
        self.shuts, self.guard_at, self.repeat_at = True, now + GUARD, now + self.wait
        return self.acknowledgement()[:1]

    def acknowledgement(self):
        """The SACK, behind a SHUTDOWN where it has shut."""
        runs = []
        for tsn in sorted(self.seen):
            if runs and tsn == runs[-1][1] + 1:
                runs[-1][1] = tsn
            else:
                runs.append([tsn, tsn])
        sack = wire.sack_chunk(self.cum, BUFFER, [(start - self.cum, stop - self.cum) for start, stop in runs[:64]], [])
        return [chunk(wire.SHUTDOWN, struct.pack('>I', self.cum))] * self.shuts + [sack]

    def next_data(self):
        """Its next message, if it has one and fewer than four are under way."""
        if self.sent == self.to_send or self.sent - self.acknowledged >= 4:
            return None
        self.sent += 1
        return [wire.data_chunk(False, 3, PEER_TSN + self.sent - 1, 0, self.sent - 1, 0, bytes(self.length))]

    def hear(self, packet, now):
        """What it answers to a packet: lists of chunks."""
        answers, acted = [], False
        for found in wire.Packet(packet).chunks:
            if found.kind == wire.DATA and not self.closed:
                self.take(wire.Piece(found))
                acted = True
            elif found.kind == wire.SACK:
                self.acknowledged = max(self.acknowledged, wire.Sack(found).cumulative - PEER_TSN + 1)
            elif found.kind == wire.SHUTDOWN_ACK:
                self.closed, self.repeat_at, self.guard_at = True, None, None
                answers.append([chunk(wire.SHUTDOWN_COMPLETE)])
            elif found.kind == wire.SHUTDOWN and self.to_send and self.acknowledged == self.to_send:
                answers.append([chunk(wire.SHUTDOWN_ACK)])
        if acted:
            self.wait = 1_000
            self.repeat_at = now + self.wait if self.shuts else None
            answers.append(self.acknowledgement())
        return answers

    def take(self, piece):
        if piece.tsn > self.cum:
            self.seen.add(piece.tsn)
            self.messages.add(piece.tsn)
        while self.cum + 1 in self.seen:
            self.cum += 1
            self.seen.remove(self.cum)

    def received(self):
        """How many messages came."""
        return len(self.messages)

    def ring(self, now):
        """Its timers: it shuts again, or gives up."""
        if self.guard_at is not None and self.guard_at <= now:
            self.closed, self.repeat_at, self.guard_at = True, None, None
            return [chunk(wire.ABORT)]
        if self.repeat_at is not None and self.repeat_at <= now:
            self.wait = min(2 * self.wait, SLOWEST)
            self.repeat_at = now + self.wait
            return self.acknowledgement()
        return None


class Run:
    """An end, its peer and the path between them: bits a second to the end and to the peer, or None, and the share of packets lost."""

    def __init__(self, asked, peer, delay, rates, lost, seed):
        self.end, self.peer, self.delay, self.lost = asked, peer, delay, lost
        self.rates = dict(zip(('to end', 'to peer'), rates))
        self.chance, self.now, self.events, self.count = random.Random(seed), 0, [], 0
        self.free = {'to end': 0, 'to peer': 0}

    def go(self, way, packet):
        """A packet goes on its way, and comes unless it is lost."""
        begins = max(self.now, self.free[way])
        if self.rates[way] is not None:
            begins += (len(packet) + ON_THE_WIRE) * 8_000 // self.rates[way]
            self.free[way] = begins
        if self.chance.random() >= self.lost:
            self.count += 1
            heapq.heappush(self.events, (begins + self.delay, self.count, way, packet))

    def tell(self, chunks):
        """The peer sends a packet."""
        self.go('to end', wire.packet(5001, 5000, OWN_TAG, chunks))

    def open(self):
        self.end.ask('connect %d %d' % (OWN_TAG, OWN_TSN))
        self.end.built()
        cookie = item(wire.STATE_COOKIE, bytes(20))
        for chunks in ([chunk(wire.INIT_ACK, wire.init_value(PEER_TAG, BUFFER, 1, 1, PEER_TSN, [cookie]))], [chunk(wire.COOKIE_ACK)]):
            self.end.ask('packet ' + wire.packet(5001, 5000, OWN_TAG, chunks).hex())
            self.end.built()

    def out(self):
        """All that the end sends now."""
        for packet in self.end.built():
            self.go('to peer', packet)

    def step(self):
        """What comes next: a packet, or the moment of a timer. False where nothing does."""
        answer = self.end.ask('next', False)[5:]
        rings = int(answer) if answer != '-' else None
        moments = [self.events[0][0] if self.events else None, rings, self.peer.repeat_at, self.peer.guard_at]
        moments = [moment for moment in moments if moment is not None]
        if not moments:
            return False
        self.now = max(self.now, min(moments))
        if rings == self.now:
            self.end.ask('at %d' % self.now)
            self.out()
        elif any(event[0] == self.now and event[2] == 'to end' for event in self.events):
            self.end.ask('at %d' % self.now)
        while self.events and self.events[0][0] <= self.now:
            way, packet = heapq.heappop(self.events)[2:]
            if way == 'to end':
                self.end.ask('packet ' + packet.hex())
                while self.end.ask('take 0', False).startswith('message'):
                    self.end.lines.append('> take 0')
                self.out()
            else:
                for chunks in self.peer.hear(packet, self.now):
                    self.tell(chunks)
        chunks = self.peer.ring(self.now)
        if chunks is not None:
            self.tell(chunks)
        while (chunks := self.peer.next_data()) is not None:
            self.tell(chunks)
        return True

    def close(self):
        """(moment, how) at which the end was closed."""
        while self.end.ask('state', False).split(' ')[1] != 'Closed' and self.step():
            pass
        self.end.lines.append('> state')
        return self.now, self.end.ask('state', False).split(' ')[2]


def lossy(asked, lost, seed):
    """The path and the peer of (1)."""
    return Run(asked, Peer(0, 0), DELAY, (None, None), lost, seed)


def draining(run, messages, length):
    """(1): the end has messages queued, and its peer shuts. (when, how, messages lost)"""
    run.open()
    for _ in range(messages):
        line = 'send 0 o 0 - '
        run.end.ask(line + '00' * length, False)
        run.end.lines.append('~%d %s' % (len(line) + 2 * length, line))
    run.tell(run.peer.shut(run.now))
    run.out()
    closed = run.close()
    return (*closed, messages - run.peer.received())


def slow(asked, messages, length, rates):
    """The path and the peer of (2)."""
    return Run(asked, Peer(messages, length), DELAY, rates, 0, 0)


def receiving(run):
    """(2): the end shuts while its peer's messages come over a slow link. (when, how, messages lost)"""
    run.open()
    run.end.ask('shutdown')
    run.out()
    closed = run.close()
    taken = sum(line == '> take 0' for line in run.end.lines)
    return (*closed, run.peer.to_send - taken)


def rows():
    """The small ones, as cases."""
    for options in ((), ('standard-closing',)):
        how = "the RFC's timers" if options else "the profile's timers"
        for name, play in (('24 messages are queued when the peer shuts, which acknowledges by a SHUTDOWN in front of its SACK', lambda asked: draining(lossy(asked, 0.2, 14), 24, 1_000)),
                           ('it shuts with 42 messages to come, one in 9 s', lambda asked: receiving(slow(asked, 42, 1, (53, None))))):
            asked = End(options)
            said = play(asked)
            lines = ['= %s: %s' % (how, name), '$ sctp-end ' + asked.words, '  closed at %d: %s, %d messages lost' % said, *asked.lines]
            print('\n'.join(lines) + '\n')


def print_both(options, seeds, drain, receive):
    """What became of (1) with each seed, and of (2): [(when, how, messages lost)], and (when, how, messages lost)"""
    name = ' '.join(options) or 'without'
    drained = []
    for seed in seeds:
        when, how, missing = drain(seed)
        print('%s: peer shuts, seed %d: closed after %.1f s, %s, %d messages lost' % (name, seed, when / 1_000, how, missing), flush=True)
        drained.append((when, how, missing))
    print('%s: peer shuts: the middle of %d closes after %.1f s' % (name, len(drained), statistics.median(when for when, _, _ in drained) / 1_000))
    when, how, missing = receive()
    print('%s: this end shuts: closed after %.1f s, %s, %d messages lost' % (name, when / 1_000, how, missing), flush=True)
    return drained, (when, how, missing)


def main():
    parser = argparse.ArgumentParser()
    parser.add_argument('--model', action='store_true')
    parser.add_argument('--rows', action='store_true')
    parser.add_argument('--lost', type=int, default=10)
    parser.add_argument('seeds', type=int, nargs='*', default=SEEDS)
    asked = parser.parse_args()
    if asked.rows:
        rows()
        return
    program = None if asked.model else PROGRAM
    for options in ((), ('standard-closing',)):
        print_both(options, asked.seeds,
                   lambda seed: draining(lossy(End(options, program), asked.lost / 100, seed), *QUEUED),
                   lambda: receiving(slow(End(options, program), *TO_COME, RATES)))


if __name__ == '__main__':
    main()
