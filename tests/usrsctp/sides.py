"""The endpoints of an association, asked line by line: sctp-end or the model, and usrsctp."""

import os
import subprocess
import sys

sys.path.insert(0, os.path.join(os.path.dirname(os.path.abspath(__file__)), '..', 'model'))
import end

PACKET, FRAGMENT, LENGTH = 1_200, 1_168, 1_000         # bytes: of the longest packet, of a fragment, of a message
BUFFER, KEY = 1_048_576, bytes(range(32)).hex()
TICK = 10                                              # milliseconds between usrsctp's timers
SENDING, RECEIVING = 5_000, 5_001                      # ports
QUEUED, REFILL, ENDLESS = 250, 100, 1_000_000          # of messages without end: those queued; packets until more are; as good as that


class Program:
    """A program that answers each line by one line, and before it by others that `is_more` knows."""

    def __init__(self, words, is_more):
        self.is_more = is_more
        self.process = subprocess.Popen(words, stdin=subprocess.PIPE, stdout=subprocess.PIPE, text=True, bufsize=1 << 20)

    def ask(self, *lines):
        """The answers, in one list."""
        try:
            self.process.stdin.write('\n'.join(lines) + '\n')
            self.process.stdin.flush()
        except BrokenPipeError:                        # it answers no more
            pass
        answers, missing = [], len(lines)
        while missing:
            answer = self.process.stdout.readline()
            if not answer:                             # it says why
                self.process.wait()
                sys.exit(3)
            answers.append(answer.rstrip('\n'))
            missing -= not self.is_more(answer)
        return answers

    def finish(self):
        self.process.stdin.close()
        self.process.wait()


class Model:
    """The model of sctp-end, asked likewise."""

    def __init__(self, words):
        self.said = []
        self.session = end.Session(end.end_of([word.encode() for word in words]), self.said.append)

    def ask(self, *lines):
        del self.said[:]
        for line in lines:
            self.session.line(line.encode(), 0)
        return list(self.said)

    def finish(self):
        """It holds nothing."""


class Ours:
    """An endpoint of this project; without a program the model runs it."""

    def __init__(self, program, options=(), listens=False, tag=7, streams=1):
        ports = [RECEIVING, SENDING] if listens else [SENDING, RECEIVING]
        words = ['listener' if listens else 'caller', PACKET, FRAGMENT, BUFFER, streams, 'data', *options, *ports, *[KEY] * listens]
        words = [str(word) for word in words]
        self.program = Model(words) if program is None else Program([program, *words], lambda answer: False)
        self.listens, self.tag, self.came, self.moment, self.is_endless, self.built_since = listens, tag, 0, None, False, 0
        self.burst = None if listens or self.flight() is None else 0        # by how much one packet that comes lets the flight grow
        self.program.ask('draw %d %d' % (tag + 1, tag * 1_000))

    def flight(self):
        """The bytes in flight; None if the line `path` isn't known."""
        words = self.program.ask('path')[0].split(' ')
        return int(words[1]) if words[0] == 'path' else None

    def next(self):
        return self.moment

    def connect(self, now):
        self.program.ask('at %d' % now, 'connect %d %d' % (self.tag, self.tag * 1_000))
        return self.built()

    def offer(self, count):
        """Its user has so many messages; None: always another one."""
        self.is_endless = count is None
        self.queue(QUEUED if count is None else count)
        return self.built()

    def queue(self, count):
        self.program.ask(*['send 0 o 0 - ' + '00' * LENGTH] * count)

    def built(self):
        """All that it sends now."""
        packets, turns = [], 1
        while True:
            *answers, following = self.program.ask(*['build'] * turns, 'next')
            packets += [bytes.fromhex(answer[5:]) for answer in answers if answer.startswith('sent')]
            turns = min(2 * turns, 64)
            self.built_since += len(answers)
            if answers[-1] != 'quiet':
                continue
            if not self.is_endless or self.built_since < REFILL:
                break
            self.built_since = 0
            self.queue(QUEUED - int(self.program.ask('status')[0].split(' ')[8]))
        self.moment = None if following == 'next -' else int(following[5:])
        return packets

    def hear(self, packet, now):
        self.program.ask('at %d' % now)
        before = self.flight() if self.burst is not None else 0
        answer = self.program.ask('packet ' + packet.hex())[0]
        while self.listens and self.program.ask('take 0')[0].startswith('message'):
            self.came += 1
        packets = ([bytes.fromhex(answer[7:])] if answer.startswith('answer') else []) + self.built()
        if self.burst is not None:
            self.burst = max(self.burst, self.flight() - before)
        return packets

    def ring(self, now):
        self.program.ask('at %d' % now)
        return self.built()

    def finish(self):
        self.program.finish()


class Usrsctp:
    """usrsctp, as peer.c has it."""

    burst = None

    def __init__(self, program, seed, listens=False, buffer=BUFFER, chunks=None):
        """Its receive buffer in bytes; how many chunks it holds at most, if not its own number."""
        ports = [RECEIVING] if listens else [SENDING]
        words = [program, ports[0], buffer, seed, PACKET, *[RECEIVING] * (not listens)]
        self.program = Program([str(word) for word in words], lambda answer: not answer.startswith('done'))
        self.came, self.moment = 0, TICK
        if chunks is not None:
            self.program.ask('chunks %d' % chunks)

    def next(self):
        return self.moment

    def ask(self, *lines):
        answers = self.program.ask(*lines)
        self.came = int(answers[-1].split(' ')[1])
        return [bytes.fromhex(answer[4:]) for answer in answers if answer.startswith('out')]

    def connect(self, now):
        return self.ask('at %d' % now, 'connect')

    def offer(self, count):
        return self.ask('offer %d %d' % (ENDLESS if count is None else count, LENGTH))

    def hear(self, packet, now):
        return self.ask('at %d' % now, 'packet ' + packet.hex())

    def ring(self, now):
        self.moment = now + TICK
        return self.ask('at %d' % now)

    def finish(self):
        self.program.finish()
