#!/usr/bin/env python3
"""Fifty streams between an endpoint and usrsctp, reset again and again (RFC 6525) while packets are lost, in virtual time.

streams.py PEER [--model] [--program P] [--lost PERCENT] [--seeds N] [--first SEED] [WORD ..]: PEER is the built peer.c. The endpoint is
`sctp-end` with these words behind MODE and `reset`, or the model; with an even seed it listens. On each of its streams an end sends three
messages, resets the stream, sends three more once that is done, and so on: five times; an end that resets nothing sends its messages once.
Either end resets; or both do, each by itself; or each stream is a channel (RFC 8831 section 6.7), which one end closes, and the other end
then too. What arrives on each stream must be exactly that: each message once and in order, the SSNs from 0 on behind each reset, and between
the messages of two turns a report of the reset; usrsctp reports one twice if its first response was "in progress". It prints how long each
run took, how many reports were doubled, and what was wrong. Without a WORD, of a hundred seeds with a tenth of the packets lost
usrsctp gets eight runs wrong by itself (docs/PEERS.md), none of the first fourteen seeds. Status 0 if nothing was wrong, else 1.
"""

import argparse
import os
import random
import sys

import path
from sides import Ours, Usrsctp

PROGRAM = os.path.join(os.path.dirname(os.path.abspath(__file__)), '..', '..', 'sctp-end')
STREAMS, MESSAGES, TURNS, DELAY, LAST = 50, 3, 5, 20, 600_000             # of the last two milliseconds
RESET = 'reset'


def texts(stream, turn):
    return ['%d.%d.%d' % (stream, turn, n) for n in range(MESSAGES)]


# How an end resets its streams: not at all; as it likes; as it likes, but it begins anew once the other end has reset too; once that has.
NEVER, ALONE, CLOSES, FOLLOWS = range(4)


class User:
    """What an end sends in turn on each stream, and what comes to it there."""

    def __init__(self, how):
        self.how, self.turns, self.turn, self.is_sent = how, 1 if how == NEVER else TURNS, [0] * STREAMS, [False] * STREAMS
        self.came, self.wrong, self.begins = [[] for _ in range(STREAMS)], [], False

    def resets_of_other(self, stream):
        return self.came[stream].count(RESET)

    def to_send(self):
        """The streams on which it sends its next messages, where these take them; none before the association is there."""
        return [stream for stream in range(STREAMS) if self.begins and self.turn[stream] < self.turns and not self.is_sent[stream]
                and (self.how != CLOSES or self.resets_of_other(stream) == self.turn[stream])]

    def to_reset(self):
        """The streams that it resets now, behind its messages."""
        return [stream for stream in range(STREAMS) if self.is_sent[stream] and self.turn[stream] + 1 < self.turns
                and (self.how != FOLLOWS or self.resets_of_other(stream) > self.turn[stream])]

    def has_reset(self, stream):
        self.turn[stream], self.is_sent[stream] = self.turn[stream] + 1, False

    def misses(self, other):
        """Something that the other end sends hasn't come."""
        return any(len(came) < other.turns * (MESSAGES + 1) - 1 for came in self.came)

    def faults(self, other):
        """What isn't as it was sent, in words."""
        wanted = [[word for turn in range(other.turns) for word in ([RESET] if turn else []) + texts(stream, turn)] for stream in range(STREAMS)]
        said = ['stream %d: %s' % (stream, ' '.join(came)) for stream, came in enumerate(self.came) if came != wanted[stream]]
        return self.wrong + said


class OurEnd(Ours):
    """An endpoint of this project, and its user."""

    def __init__(self, program, options, listens, how):
        super().__init__(program, options, listens, streams=STREAMS)
        self.user = User(how)

    def act(self):
        """Its user sends where a stream takes messages, and resets it behind them."""
        user = self.user
        streams = user.to_send()
        lines = [['send %d o 0 - %s' % (stream, text.encode().hex()) for text in texts(stream, user.turn[stream])] for stream in streams]
        for stream, answer in zip(streams, self.program.ask(*[line[0] for line in lines]) if lines else []):
            if answer != 'refused 8':
                user.is_sent[stream] = True
                self.must(stream, [answer] + self.program.ask(*lines[streams.index(stream)][1:]))
        for stream in user.to_reset():
            self.must(stream, self.program.ask('reset %d' % stream))
            user.has_reset(stream)
        return self.built()

    def must(self, stream, answers):
        if not all(answer.startswith(('ticket', 'ok')) for answer in answers):
            self.user.wrong.append('stream %d: %s' % (stream, ', '.join(answers)))

    def take(self, stream):
        word, *more = self.program.ask('take %d' % stream)[0].split(' ')
        if word == 'message':
            self.user.came[stream].append(bytes.fromhex(more[-1]).decode())
        return word == 'message'

    def read(self):
        """What waits on a stream that was reset was sent before or behind that, as it is reported."""
        while (told := self.program.ask('resets')[0]).startswith('reset '):
            stream, count = (int(word) for word in told.split(' ')[1:])
            if not all([self.take(stream) for _ in range(count)]):
                self.user.wrong.append('stream %d: %d messages waited, it is said' % (stream, count))
            self.user.came[stream].append(RESET)
        while (stream := self.program.ask('status')[0].split(' ')[-1]) != '-':
            self.take(int(stream))

    def hear(self, packet, now):
        answer = self.program.ask('at %d' % now, 'packet ' + packet.hex())[1]
        self.read()
        return ([bytes.fromhex(answer[7:])] if answer.startswith('answer') else []) + self.act()


class TheirEnd(Usrsctp):
    """usrsctp, and its user."""

    def __init__(self, program, seed, listens, how):
        super().__init__(program, seed, listens)
        self.user, self.resets, self.next_ssn, self.doubled = User(how), set(), [0] * STREAMS, 0
        self.ask('streams %d' % STREAMS)

    def ask(self, *lines):
        """What it sends; its user hears the other lines."""
        packets = []
        for answer in self.program.ask(*lines):
            word, *more = answer.split(' ')
            if word == 'out':
                packets.append(bytes.fromhex(more[0]))
            elif word == 'message':
                self.message(int(more[0]), int(more[1]), more[2])
            elif word == 'reset':
                self.reset(more[0], [int(stream) for stream in more[1:]])
            elif word == 'not':
                self.user.wrong.append('usrsctp doesn\'t send: %s' % ', '.join(lines))
        return packets

    def message(self, stream, ssn, text):
        if ssn != self.next_ssn[stream]:
            self.user.wrong.append('stream %d: SSN %d in place of %d' % (stream, ssn, self.next_ssn[stream]))
        self.next_ssn[stream] = ssn + 1
        self.user.came[stream].append(text)

    def reset(self, how, streams):
        """A report without a stream is of all."""
        for stream in streams or range(STREAMS):
            if how == 'in' and self.user.came[stream][-1:] == [RESET]:
                self.doubled += 1
            elif how == 'in':
                self.next_ssn[stream] = 0
                self.user.came[stream].append(RESET)
            elif how == 'out':
                self.resets.discard(stream)
            else:
                self.user.wrong.append('stream %d: the reset of usrsctp\'s failed' % stream)

    def act(self):
        packets = []
        for stream in self.user.to_send():
            if stream not in self.resets:
                self.user.is_sent[stream] = True
                packets += self.ask(*['say %d %s' % (stream, text) for text in texts(stream, self.user.turn[stream])])
        for stream in self.user.to_reset():
            self.resets.add(stream)
            self.user.has_reset(stream)
            packets += self.ask('reset %d' % stream)
        return packets

    def hear(self, packet, now):
        return super().hear(packet, now) + self.act()

    def ring(self, now):
        return super().ring(now) + self.act()


def run(asked, ours_how, theirs_how, seed):
    """(milliseconds, reports that were doubled, what was wrong)"""
    calls, chance, network = seed % 2 == 1, random.Random(seed), path.Network()
    ours = OurEnd(None if asked.model else asked.program, [*asked.words, 'reset'], not calls, ours_how)
    theirs = TheirEnd(asked.peer, seed, calls, theirs_how)
    ends = (ours, theirs) if calls else (theirs, ours)
    side = network.join(*ends, *[path.Link(DELAY, chance, asked.lost / 100) for _ in range(2)])
    network.open(side)
    began = network.now
    for one in (side, side.other):
        one.endpoint.user.begins = True
        network.go(one, one.endpoint.act())
    while (ours.user.misses(theirs.user) or theirs.user.misses(ours.user)) and network.step(began + LAST * 1_000):
        pass
    network.close()
    return (network.now - began) // 1_000, theirs.doubled, ours.user.faults(theirs.user) + theirs.user.faults(ours.user)


RUNS = (('the endpoint resets', ALONE, NEVER), ('usrsctp resets', NEVER, ALONE), ('both reset', ALONE, ALONE),
        ('the endpoint closes channels', CLOSES, FOLLOWS), ('usrsctp closes channels', FOLLOWS, CLOSES))


def main():
    parser = argparse.ArgumentParser()
    parser.add_argument('peer')
    parser.add_argument('--model', action='store_true')
    parser.add_argument('--program', default=PROGRAM)
    parser.add_argument('--lost', type=int, default=10)
    parser.add_argument('--seeds', type=int, default=4)
    parser.add_argument('--first', type=int, default=1)
    parser.add_argument('words', nargs='*')
    asked = parser.parse_intermixed_args()
    faulty = 0
    for named, *how in RUNS:
        for seed in range(asked.first, asked.first + asked.seeds):
            took, doubled, faults = run(asked, *how, seed)
            resets = STREAMS * (TURNS - 1) * (2 - how.count(NEVER))
            said = 'as wanted' if not faults else '%d faults' % len(faults)
            print('%s, seed %d: %d resets, %d %% lost, %.1f s, %d reported twice, %s' % (
                named, seed, resets, asked.lost, took / 1_000, doubled, said), flush=True)
            print(''.join('    %s\n' % fault for fault in faults[:5]), end='')
            faulty += bool(faults)
    print('as wanted' if not faulty else '%d runs aren\'t as wanted' % faulty)
    return 1 if faulty else 0


if __name__ == '__main__':
    sys.exit(main())
