#!/usr/bin/env python3
"""Three streams that an endpoint resets again and again with nothing sent between (RFC 6525), and usrsctp as its peer, in virtual time.

again.py PEER [--model] [--program P] [--lost PERCENT] [--seeds N]: PEER is the built peer.c. Every second request says the same as the one before
it, so that it names its first stream twice. Each must be performed and reported by usrsctp as it is named, and then each stream carries a
message with SSN 0. Without --lost 0 and 10 percent of the packets are lost. Status 0 if that is so, else 1.
"""

import argparse
import random
import sys

import path
import streams

TURNS, LAST = 4, 60_000_000                            # the last in microseconds
NAMED = [(0, 1, 2), (0, 0, 1, 2)] * (TURNS // 2)


class TheirEnd(streams.TheirEnd):
    """usrsctp, which says what is reset and what arrives."""

    def __init__(self, peer, seed, listens):
        super().__init__(peer, seed, listens, streams.NEVER)
        self.reported, self.arrived = [], []

    def reset(self, how, named):
        if not self.reported or self.reported[-1] != (how, tuple(named)):
            self.reported.append((how, tuple(named)))  # after "in progress" it says so twice (docs/PEERS.md)

    def message(self, stream, ssn, text):
        self.arrived.append((stream, ssn))


def takes_messages(ours):
    """An empty message is refused for that alone."""
    return all(ours.program.ask('send %d o 0 - -' % stream) == ['refused 2'] for stream in range(3))


def run(asked, lost, seed):
    """What usrsctp reported, and what arrived there."""
    calls, network = seed % 2 == 1, path.Network()
    ours = streams.OurEnd(None if asked.model else asked.program, ['reset'], not calls, streams.NEVER)
    theirs = TheirEnd(asked.peer, seed, calls)
    side = network.join(*((ours, theirs) if calls else (theirs, ours)), *[path.Link(streams.DELAY, random.Random(seed), lost / 100) for _ in 'oi'])
    network.open(side)
    own = side if side.endpoint is ours else side.other
    for _ in range(TURNS):
        ours.program.ask(*['reset %d' % stream for stream in range(3)])
        network.go(own, ours.built())
        while not takes_messages(ours) and network.step(network.now + LAST):
            pass
    ours.program.ask(*['send %d o 0 - 6161' % stream for stream in range(3)])
    network.go(own, ours.built())
    while len(theirs.arrived) < 3 and network.step(network.now + LAST):
        pass
    network.close()
    return theirs.reported, sorted(theirs.arrived)


def main():
    parser = argparse.ArgumentParser()
    parser.add_argument('peer')
    parser.add_argument('--model', action='store_true')
    parser.add_argument('--program', default=streams.PROGRAM)
    parser.add_argument('--lost', type=int, action='append')
    parser.add_argument('--seeds', type=int, default=4)
    asked = parser.parse_args()
    streams.STREAMS, faulty, wanted = 3, 0, ([('in', named) for named in NAMED], [(0, 0), (1, 0), (2, 0)])
    for lost in asked.lost or (0, 10):
        for seed in range(1, asked.seeds + 1):
            found = run(asked, lost, seed)
            faulty += found != wanted
            print('seed %d: %d resets, %d %% lost, %s' % (seed, TURNS, lost, 'as wanted' if found == wanted else found), flush=True)
    return 1 if faulty else 0


if __name__ == '__main__':
    sys.exit(main())
