#!/usr/bin/env python3
"""Schedules of two ends that reset their streams (RFC 6525), and use them anew at once, while packets are lost, doubled and late.

reset_schedules.py [--program P] N [SEED]: N of them, by the model and by `sctp-trace`; --only-model runs no program; --jobs N: so many at once.
Of each: what is promised of two ends holds (promises.py), no stream is reset for ever, and once all is quiet each takes a message and
delivers it; of a stream no more resets are reported than were begun, and where the user asks behind each packet as many; and both
say the same. --uncounted: B is a peer of another make (uncounted.py), which may report a reset twice; of it there is no program.
"""

import argparse
import os
import random
import sys
from multiprocessing import Pool

import compare
import model
import uncounted
from dated import DatedPair, Run

FOUND = os.path.join(compare.HERE, 'found')
OTHER = model.OTHER
QUIET_TURNS = 120


class Schedule(Run):
    """A schedule by chance, written beside its run."""

    def __init__(self, seed, is_uncounted=False):
        super().__init__()
        self.random, self.is_uncounted = random.Random('resets %d' % seed), is_uncounted
        self.loss, self.late, self.double = self.pick(0, 0.1, 0.25, 0.4), self.pick(0, 0.2, 0.5), self.pick(0, 0.05, 0.2)
        self.streams, self.is_eager = self.pick(1, 2, 3), self.chance(0.5)
        self.flight, self.serial = [], 0
        self.begun, self.told_of = {}, {}     # (side, stream): how many resets of it were begun there, and reported across

    def pick(self, *things):
        return self.random.choice(things)

    def chance(self, share):
        return self.random.random() < share

    # ---- The course ----

    def make(self):
        self.start()
        acts = ((self.send, 20), (self.reset, self.pick(4, 8, 16)), (self.build, 24), (self.arrive, 36), (self.time, 8), (self.ask, 5), (self.take, 2))
        names, weights = zip(*acts)
        for _ in range(self.random.randint(80, 300)):
            self.random.choices(names, weights)[0]()
        self.calm()
        self.use_all()
        return self

    def start(self):
        self.line('pair', self.pick(576, 1_500), self.pick(4, 400), 65_536, self.streams, self.pick('data', 'data', 'data-pr', 'idata', 'idata-pr'))
        extras = [words for words, share in (('delay', .3), ('fast-retransmit', .4), ('congestion-control', .2), ('rto-min %d' % self.pick(10, 200), .3))
                  if self.chance(share)]
        self.line('options', 'both', *extras, 'reset')
        self.line('open')

    # ---- Acts ----

    def send(self):
        """Mostly one message, on a stream that takes it or doesn't."""
        x = self.pick('A', 'B')
        for _ in range(self.pick(1, 1, 1, 3)):
            self.message(x, self.random.randrange(self.streams), self.pick(4, 4, 40, 900))

    def message(self, x, stream, size):
        self.serial += 1
        return self.line('send', x, stream, self.pick('o', 'o', 'u'), 0, '-', '%08x' % self.serial + '61' * (size - 4))

    def reset(self):
        """Mostly once more while there is nothing on the stream."""
        x, stream = self.pick('A', 'B'), self.random.randrange(self.streams)
        takes = self.end(x).sender is not None and self.end(x).sender.resets.takes_messages(stream)
        if self.line('reset', x, stream) == 'ok' and takes:
            self.begun[x, stream] = self.begun.get((x, stream), 0) + 1

    def end(self, x):
        return self.pair.ends[x]

    def build(self, x=None):
        x = x or self.pick('A', 'B')
        is_sent = self.line('build', x).startswith('sent')
        if is_sent:
            self.flight.append((x, len(self.pair.bags[x])))
        return is_sent

    def arrive(self):
        if self.flight:
            packet = self.flight.pop(self.random.randrange(len(self.flight)) if self.chance(self.late) else 0)
            if not self.chance(self.loss):
                self.deliver(*packet)
            if self.chance(self.double):
                self.flight.append(packet)

    def deliver(self, x, n):
        self.line('deliver', x, n)
        if self.is_eager:
            self.ask(OTHER[x])

    def ask(self, y=None):
        """The user asks which streams its peer has reset, until there is none."""
        y = y or self.pick('A', 'B')
        while True:
            said = self.line('resets', y).split(' ')
            if said[0] != 'reset':
                return
            key = OTHER[y], int(said[2])
            self.told_of[key] = self.told_of.get(key, 0) + 1

    def time(self):
        moments = self.moments()
        if moments and self.chance(0.6):
            return self.line('at', max(min(moments), self.now()))
        return self.line('at', self.now() + self.pick(1, 20, 300, 1_000))

    def take(self):
        for x in 'AB':
            for stream in range(self.streams):
                self.line('take', x, stream)

    def now(self):
        return max(self.pair.clocks.values())

    def moments(self):
        return [m for m in (end.next_moment() for end in self.pair.ends.values()) if m is not None]

    # ---- The end ----

    def calm(self):
        """Nothing is lost any more, and all that is in flight arrives."""
        self.random.shuffle(self.flight)
        for turn in range(QUIET_TURNS):
            went = True
            while went:
                went = self.build('A') | self.build('B') or bool(self.flight)
                for packet in self.flight:
                    self.deliver(*packet)
                self.flight = []
            self.take()
            moments = self.moments()
            if not moments:
                break
            self.line('at', max(min(moments), self.now() + 50 * turn))
        self.ask('A')
        self.ask('B')

    def waits(self):
        """What waits for ever, in words, or None."""
        for x in 'AB':
            resets = self.end(x).sender.resets
            if self.end(x).ended is not None:
                return '%s is over' % x
            if resets.pending is not None or resets.sending:
                return '%s resets its streams %s for ever' % (x, list(resets.sending))
        return None

    def use_all(self):
        """Each stream carries a message, either way."""
        wrong = self.waits() or (None if self.is_uncounted else self.counts())
        if wrong is None:
            wanted = []
            for x in 'AB':
                for stream in range(self.streams):
                    self.message(x, stream, 4)
                    wanted.append((OTHER[x], stream, '%08x' % self.serial))
            self.exchange()
            for y, stream, data in wanted:
                if not self.delivers(y, stream, data):
                    wrong = wrong or 'stream %d to %s delivers nothing any more' % (stream, y)
        if wrong is not None and self.fault is None:
            self.fault, self.faulty_line = wrong, len(self.lines)

    def delivers(self, y, stream, data):
        """The user takes it behind all that wait."""
        said = self.line('take', y, stream)
        while said.startswith('message') and not said.endswith(' ' + data):
            said = self.line('take', y, stream)
        return said.startswith('message')

    def exchange(self):
        """Till nothing is sent, and a second more."""
        for _ in range(3):
            while self.build('A') | self.build('B'):
                for packet in self.flight:
                    self.deliver(*packet)
                self.flight = []
            self.line('at', self.now() + 1_000)

    def counts(self):
        """Which stream is reported more or less often than it was reset, in words, or None."""
        for key in self.begun.keys() | self.told_of.keys():
            begun, told = self.begun.get(key, 0), self.told_of.get(key, 0)
            if told > begun or self.is_eager and told < begun:
                return 'stream %d of %s: %d resets were begun, %d are reported' % (key[1], key[0], begun, told)
        return None


def checked(work):
    """The words of what is wrong with a schedule, or None; how many lines it has, and how many resets."""
    program, seed, is_uncounted = work
    model.Pair = uncounted.Pair if is_uncounted else DatedPair
    made = Schedule(seed, is_uncounted).make()
    data = '\n'.join(made.lines + ['']).encode()
    wrong = None if made.fault is None else 'line %d: %s' % (made.faulty_line, made.fault)
    if wrong is None and program is not None:
        found = compare.difference(program, data)
        wrong = found and 'line %d of the output: model %r, program %r' % found
    if wrong is not None:
        os.makedirs(FOUND, exist_ok=True)
        with open(os.path.join(FOUND, 'resets-schedule-%d' % seed), 'wb') as out:
            out.write(data)
    return seed, wrong, len(made.lines), sum(made.begun.values())


def main():
    parser = argparse.ArgumentParser()
    parser.add_argument('--program', default=os.path.join(compare.HERE, '..', '..', 'sctp-trace'))
    parser.add_argument('--only-model', action='store_true')
    parser.add_argument('--uncounted', action='store_true')
    parser.add_argument('--jobs', type=int, default=2)
    parser.add_argument('count', type=int)
    parser.add_argument('seed', type=int, nargs='?', default=1)
    asked = parser.parse_args()
    program = None if asked.only_model or asked.uncounted else asked.program
    lines = resets = wrongs = 0
    with Pool(asked.jobs) as workers:
        work = [(program, seed, asked.uncounted) for seed in range(asked.seed, asked.seed + asked.count)]
        for seed, wrong, more, begun in workers.imap(checked, work, 8):
            lines, resets, wrongs = lines + more, resets + begun, wrongs + (wrong is not None)
            if wrong is not None:
                print('schedule %d, %s' % (seed, wrong), flush=True)
    print('%d schedules, %d lines, %d resets; %d differ or break a promise' % (asked.count, lines, resets, wrongs))
    return 1 if wrongs else 0


if __name__ == '__main__':
    sys.exit(main())
