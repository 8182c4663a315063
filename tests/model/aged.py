#!/usr/bin/env python3
"""Why no packet may be kept for ever: the model with small numbers, and packets that come late.

TSNs and MIDs are taken modulo 2^8, SSNs modulo 2^6; the window is 31, and the limit of ages 64: in
proportion to 2^32, 2^16, 32,767 and 2^31 - 65,536. A packet comes within the limit where each end has
assigned fewer than 64 TSNs more than when it was built. The least age at which one may be misread is
97 = 2^7 - 31, of a SACK or SHUTDOWN: it ends the association. The least at which a promise may break is
195 = 2^8 - 2 * 31 + 1, of a fragment or FORWARD.

aged.py N [SEED]: N schedules by chance with all deliveries within the limit, of which none may break a
promise, or end an association for a fault that nobody has; and N with packets kept beyond it. In half of
them the two ends differ; in half, streams are reset (RFC 6525).
aged.py --age K N [SEED]: the first N with another limit. aged.py --stored: the schedules in aged/.
aged.py --wide N [SEED]: N schedules with the RFCs' widths, in each of which streams are reset; at the end, when
nothing is lost any more, each of these resets is done.
"""

import argparse
import os
import random
import struct
import sys
from collections import Counter

import model
from dated import BROKEN, ENDED, KEPT, DatedPair, Run, played
from endpoint import ESTABLISHED
from wire import WIDTHS

FOLDER = os.path.join(os.path.dirname(os.path.abspath(__file__)), 'aged')
# What the delivery of this age does in aged/age-AGE.script.
STORED = {63: KEPT, 96: KEPT, 97: ENDED, 194: KEPT, 195: BROKEN, 255: BROKEN}


class Schedule(Run):
    """A schedule by chance, written beside its run."""

    def __init__(self, seed, ages, resets=0.5):
        """`ages` are those of the packets that come once more; `resets` is the share of those in which streams are reset."""
        super().__init__()
        self.random, self.apart, self.ages = random.Random(seed), random.Random('options %d' % seed), ages
        self.has_resets = random.Random('resets %d' % seed).random() < resets
        self.timed, self.has_two_clocks = random.Random('clocks %d' % seed), False
        self.limit = min(ages.stop, WIDTHS.age)
        self.fresh = {'A': [], 'B': []}       # packets that were neither delivered nor lost
        self.loss = self.pick((0, 0.05, 0.2, 0.4))
        self.streams, self.kinds = self.pick((1, 2, 3)), 'oou'
        self.bursts, self.sizes = self.pick(((1, 2, 5), (1, 10))), self.pick(((1, 1, 2, 3), (1, 5, 9, 20), (20, 31)))
        if self.chance(0.4):                  # windows full of messages of one lane
            self.streams, self.kinds, self.bursts, self.sizes = 1, self.pick(('o', 'u')), (40,), (1,)
        acts = (self.send, self.exchange, self.repeat, self.abandon, self.pass_time, self.take)
        self.acts, self.weights = acts, [weight * self.pick((0.3, 1, 1, 3)) for weight in (8, 16, 3, 0.7, 1, 0.4)]
        if self.has_resets:
            self.acts, self.weights = (*acts, self.reset, self.tell), [*self.weights, self.pick((1, 3, 6)), self.pick((0.5, 2))]
        self.goal = self.random.randint(300, 600)

    def pick(self, things):
        return self.random.choice(list(things))

    def chance(self, share):
        return self.random.random() < share

    def make(self):
        self.start()
        while max(self.pair.assigned()) < self.goal and len(self.lines) < 1_500 and not self.is_over():
            self.random.choices(self.acts, self.weights)[0]()
        if self.chance(0.5) and not self.is_over():
            self.line('shutdown', self.pick('AB'))
        for _ in range(40):
            if not self.is_over():
                self.pick((self.exchange, self.exchange, self.pass_time, self.repeat))()
        if self.has_resets and not self.is_over() and all(end.state == ESTABLISHED for end in self.pair.ends.values()):
            self.calm()

    def calm(self):
        """Nothing is lost any more, and all is taken: each reset that was asked for is done."""
        for turn in range(200):
            for x in 'AB':
                while not self.is_over() and self.line('build', x).startswith('sent'):
                    self.line('deliver', x, len(self.pair.bags[x]))
                self.take(x)
            if turn % 2 and not self.is_over():
                self.line('at', max(self.pair.clocks.values()) + 60_000)
        waits = [x for x, end in self.pair.ends.items() if end.sender.resets.pending or end.sender.resets.resetting()]
        if waits and not self.is_over():
            self.fault, self.faulty_line = 'a stream of end %s is reset for ever' % waits[0], len(self.lines)

    def is_over(self):
        return self.fault is not None or all(end.ended for end in self.pair.ends.values())

    def start(self):
        self.line('pair', self.pick((576, 600, 1_500)), self.pick((4, 8, 12)), 65_536, self.streams,
                  self.pick(('data', 'data-pr', 'idata', 'idata-pr')), *self.pick(((), ('delay',))))
        self.options()
        if self.chance(0.5) and self.line('open') == 'ok':
            return
        self.line('connect', 7, self.random.randrange(2**WIDTHS.tsn))
        self.line('draw', 9, self.random.randrange(2**WIDTHS.tsn))
        for words in ('build A', 'deliver A 1', 'deliver B 1', 'build A', 'deliver A 2', 'build B', 'deliver B 2'):
            self.line(words)

    def options(self):
        """In half of the schedules the ends differ, by choices apart from all others."""
        plain, self.random = self.random, self.apart
        if self.chance(0.5):
            for x in self.pick(('A', 'B', 'AB')):
                words = [('limit', self.pick((576, 600, 1_500))), ('fragment', self.pick((4, 8, 12))), ('buffer', self.pick((65_536, 131_072))),
                         ('streams', self.pick((1, 2, 3)), self.pick((1, 2, 3))), ('mode', self.pick(('data', 'data-pr', 'idata', 'idata-pr'))),
                         ('delay',), ('standard-closing',)]
                self.line('options', x, *[word for option in self.random.sample(words, self.pick((1, 3, 5))) for word in option])
        if self.has_resets:
            self.line('options', 'both', 'reset')
        self.random = plain
        if self.pair.configs['A'].reset and self.timed.random() < 0.3:
            self.has_two_clocks = True
            self.line('later', self.timed.choice('AB'), self.timed.choice((0, 1, 60_000, 2**32, 2**63)))

    # ---- Acts ----

    def send(self):
        """Some messages, the bytes of each its own; none where many wait."""
        x = self.pick('AB')
        sender = self.pair.ends[x].sender
        for _ in range(self.pick(self.bursts) if len(sender.queue) < 40 else 0):
            ticket = len(sender.messages) + 1
            data = b''.join(struct.pack('>BHB', unit, ticket, ord(x)) for unit in range(self.pick(self.sizes)))
            until = self.pair.clocks[x] + self.pick((0, 100, 2_000)) if self.chance(0.1) else '-'
            self.line('send', x, self.random.randrange(self.streams), self.pick(self.kinds), ticket, until, data.hex())

    def exchange(self):
        """Each end builds a packet; of those that wait one comes, or some in an order of their own."""
        for x in self.pick(('AB', 'BA')):
            if self.line('build', x).startswith('sent'):
                self.fresh[x].append(len(self.pair.bags[x]))
            if self.chance(0.2):
                self.random.shuffle(self.fresh[x])
            for _ in range(self.pick((0, 1, 1, 2, 3))):
                if self.fresh[x]:
                    n = self.fresh[x].pop(0)
                    if not self.chance(self.loss) and self.pair.ages_of(x)[n - 1] < self.limit:
                        self.line('deliver', x, n)

    def repeat(self):
        """A packet of the wanted ages comes once more, or at last; often the oldest of these."""
        x = self.pick('AB')
        old = [n for n, age in enumerate(self.pair.ages_of(x), 1) if age in self.ages]
        for n in self.random.choices(old, k=self.pick((1, 2, 5))) + old[:1] * self.chance(0.5) if old else []:
            self.line('deliver', x, n)

    def abandon(self):
        x = self.pick('AB')
        last = len(self.pair.ends[x].sender.messages)
        if last:
            self.line('abandon', x, max(1, last - self.random.randrange(20)))

    def pass_time(self):
        passed = self.pick((10, 200, 1_000, 1_000, 3_000))
        if not self.has_two_clocks:
            self.line('at', self.pair.clocks['A'] + passed)
            return
        for x in self.timed.choice(('A', 'B', 'AB', 'BA')):
            self.line('later', x, self.pair.clocks[x] + passed)
            if self.timed.random() < 0.7:
                self.line('moment', x)

    def take(self, x=None):
        x = x or self.pick('AB')
        for stream in range(self.streams):
            self.line('take', x, stream)

    def reset(self):
        """Some streams are reset; in another act what is sent on them is refused until that is done."""
        x = self.pick('AB')
        for stream in {self.random.randrange(self.streams) for _ in range(self.pick((1, 1, 2)))}:
            self.line('reset', x, stream)

    def tell(self):
        x = self.pick('AB')
        for _ in range(self.pick((1, 3))):
            self.line('resets', x)


# ---- The command ----

def told(seed, ages, resets=0.5):
    """What is told of a schedule with packets of these ages, which come once more."""
    schedule = Schedule(seed, ages, resets)
    schedule.make()
    return schedule.told()


def within(limit, seeds, resets=0.5):
    """Schedules with all deliveries within this limit; whether none has a fault."""
    runs = [told(seed, range(limit), resets) for seed in seeds]
    faulty = [(seed, run.line, run.fault) for seed, run in zip(seeds, runs) if run.fault is not None]
    for found in faulty[:5]:
        print('schedule %d, line %d: %s' % found)
    print('within the limit of %d: %s' % (limit, summary(runs)))
    return not faulty


def beyond(seeds):
    """Schedules with packets kept beyond the limit; whether those in which none came have no fault."""
    least = (WIDTHS.age, 195, 225, 240, 250)
    runs = [told(seed, range(least[seed % 5], least[seed % 5] + 60)) for seed in seeds]
    late = [run for run in runs if run.age >= WIDTHS.age]
    print('kept for longer, %d of %d told so: %s' % (len(late), len(runs), summary(late)))
    return all(run.fault is None for run in runs if run not in late)


def summary(runs):
    results = Counter(run.result for run in runs)
    return '%d schedules, %d TSNs, %d deliveries, the greatest age %d; %s' % (
        len(runs), sum(run.assigned for run in runs), sum(run.deliveries for run in runs),
        max((run.age for run in runs), default=0),
        ', '.join('%s in %d' % (result, results[result]) for result in (KEPT, ENDED, BROKEN)))


def stored(age):
    """A stored schedule, and the same without its delivery of this age; whether both are as wanted."""
    name = 'age-%d.script' % age
    with open(os.path.join(FOLDER, name), encoding='ascii') as file:
        lines = file.read().splitlines()
    run = played(lines)
    without = played(lines[:run.place - 1] + lines[run.place:])
    print('%s: line %d, %s, at age %d, %s the limit of %d: %s' % (
        name, run.place, lines[run.place - 1], run.age, 'within' if run.age < WIDTHS.age else 'beyond', WIDTHS.age, run.result))
    if run.fault is not None:
        print('    line %d: %s; without the delivery %s' % (run.line, run.fault, without.result))
    return (run.age, run.result, without.result) == (age, STORED[age], KEPT)


def main():
    parser = argparse.ArgumentParser()
    parser.add_argument('--stored', action='store_true')
    parser.add_argument('--age', type=int)
    parser.add_argument('--wide', action='store_true')
    parser.add_argument('count', type=int, nargs='?', default=0)
    parser.add_argument('seed', type=int, nargs='?', default=1)
    asked = parser.parse_args()
    if not asked.stored and asked.count < 1:
        parser.error('how many schedules?')
    if not asked.wide:
        WIDTHS.set(8, 6, 8)
    model.Pair = DatedPair
    seeds = range(asked.seed, asked.seed + asked.count)
    if asked.wide:
        good = [within(WIDTHS.age, seeds, 1)]
    elif asked.stored:
        good = [stored(age) for age in STORED]
    elif asked.age is not None:
        good = [within(asked.age, seeds)]
    else:
        good = [within(WIDTHS.age, seeds), beyond(seeds)]
    return 0 if all(good) else 1


if __name__ == '__main__':
    sys.exit(main())
