"""The links: 43 that differ by one thing at a time, and others at random.

A link is a rate in Mbit/s, or none, a drop-tail queue in packets, a delay in milliseconds one way, and what else happens to packets or to who
sends them."""

import random

MEGABYTE, POLLED_SEEDS = 1_000_000, 5
# What happens at random, and what the program's settings for it are.
TROUBLES = {
    '0.1 % lost': 'lost=0.001', '1 % lost': 'lost=0.01', '5 % lost': 'lost=0.05',
    'lost in bursts of 10 ms': 'good_time=490 bad_time=10',
    'lost in bursts of 4 packets': 'bad=0.005 good=0.25',
    '2 % late by 20 ms': 'late=0.02',
    '20 % of the SACKs lost': 'lost_back=0.2',
}
POLLED = {
    'polled each ms': 'polled=1', 'polled each 5 ms': 'polled=5', 'polled each 20 ms': 'polled=20',
    'both polled each 5 ms': 'polled=5 polled_back=5', 'both polled each 20 ms': 'polled=20 polled_back=20',
}
# Beyond what usrsctp holds by itself, and what a receive buffer of 1 MiB lets go: the queue alone is the limit.
WIDE = 'buffer=4194304 chunks=100000'


class Link:
    """A path, with its name."""

    def __init__(self, rate, queue, delay, trouble=None, polled=None, more=''):
        self.trouble, self.polled = trouble, polled
        parts = ['%d Mbit/s, queue %d' % (rate, queue) if rate else 'no rate', '%d ms' % delay, trouble, polled, 'window 4 MiB' if more else None]
        self.name = ', '.join(part for part in parts if part)
        self.settings = ['delay=%d' % delay, *(['rate=%d' % rate, 'queue=%d' % queue] if rate else []), *TROUBLES.get(trouble, '').split(),
                         *POLLED.get(polled, '').split(), *more.split()]

    def seeds(self, most):
        """How many runs: the tags and TSNs of a seed matter if an endpoint is polled at times, by some thousandths to a quarter; else not."""
        return most if self.trouble else min(most, POLLED_SEEDS) if self.polled else 1

    def bytes(self):
        return MEGABYTE if self.trouble else 10 * MEGABYTE


def grid():
    """The 43."""
    return [
        Link(2, 16, 20), Link(2, 110, 20),
        *[Link(10, queue, delay) for queue in (32, 64, 100, 200, 400) for delay in (20, 50, 200)],
        Link(20, 100, 20), Link(20, 200, 20), Link(100, 200, 20), Link(100, 1_000, 20, more=WIDE), Link(None, None, 50),
        *[Link(None, None, delay, lost) for lost in ('1 % lost', '5 % lost') for delay in (1, 10, 50)],
        *[Link(10, 32, 50, trouble) for trouble in list(TROUBLES)[1:]],
        Link(20, 200, 20, '0.1 % lost'), Link(100, 200, 20, '2 % late by 20 ms'), Link(100, 200, 20, '20 % of the SACKs lost'),
        *[Link(20, 200, 20, polled=polled) for polled in POLLED], Link(50, 400, 20, polled='polled each 5 ms'),
    ]


def brief():
    """One of each kind."""
    return [Link(2, 16, 20), Link(10, 32, 50), Link(10, 100, 20), Link(20, 200, 20), Link(100, 200, 20), Link(None, None, 1, '5 % lost'),
            *[Link(10, 32, 50, trouble) for trouble in list(TROUBLES)[1:]], Link(20, 200, 20, polled='polled each 5 ms')]


def between(chance, least, greatest):
    """A whole number, each doubling as likely as another."""
    return round(least * (greatest / least) ** chance.random())


def at_random(seed, count):
    """2 to 100 Mbit/s, queues of 16 to 1,000 packets, 1 to 200 ms; in half of them packets are lost or late, in half one or both are polled."""
    chance = random.Random(seed)
    return [Link(between(chance, 2, 100), between(chance, 16, 1_000), between(chance, 1, 200),
                 chance.choice([None, chance.choice(list(TROUBLES))]), chance.choice([None, chance.choice(list(POLLED))])) for _ in range(count)]


# Milliseconds that are wanted, to a peer of 20 gap blocks, to Sidorghu, to usrsctp: by a simulation of the five rules of congestion control.
BLOCKS, SIDORGHU, USRSCTP = 'to a peer of 20 gap blocks', 'to Sidorghu', 'to usrsctp'
WANTED = [
    (Link(10, 100, 20), {BLOCKS: 9_000, SIDORGHU: 9_000}),
    (Link(20, 200, 20), {BLOCKS: 4_850, SIDORGHU: 4_650}),
    (Link(100, 200, 20), {BLOCKS: 2_350, SIDORGHU: 1_800}),
    (Link(100, 1_000, 20, more=WIDE), {USRSCTP: 1_300}),
    (Link(20, 200, 20, polled='polled each 5 ms'), {USRSCTP: 4_900, SIDORGHU: 4_900}),
    (Link(None, None, 1, '5 % lost'), {USRSCTP: 400}),
]
