#!/usr/bin/env python3
"""The two closings of tests/model/closing.py with usrsctp as the peer, in virtual time.

exchanges.py PEER [--model] [--lost PERCENT] [--buffer BYTES] [SEED ..]: PEER is the built peer.c, BYTES its
receive buffer. `sctp-end` runs the end, or the model. The association opens over the same path, from which
nothing is lost meanwhile, and the time is counted from there. It prints the lines of closing.py, and at the
end whether all is as wanted with `standard-closing`: each end completed, no message lost, the middle of
those whose peer shuts closed within 15 s. Status 0 if so, else 1.
"""

import argparse
import os
import statistics
import subprocess
import sys

sys.path.insert(0, os.path.join(os.path.dirname(os.path.abspath(__file__)), '..', 'model'))
import closing

PORT = 5001
TICK, LAST, WANTED = 10, 3_600_000, 15_000     # milliseconds: between its timers; until a run is given up; for the middle run
BUFFER = 262_144        # bytes: with less its window closes over a hole, and its SHUTDOWNs tell none (docs/PEERS.md)


class Usrsctp:
    """The peer, asked line by line. What it sends at once is a list of packets."""

    def __init__(self, program, buffer, to_send, length, seed):
        self.process = subprocess.Popen([program, str(PORT), str(buffer), str(seed)],
                                        stdin=subprocess.PIPE, stdout=subprocess.PIPE, text=True, bufsize=1)
        self.to_send, self.length, self.came = to_send, length, 0
        self.repeat_at, self.guard_at = TICK, None

    def ask(self, line):
        self.process.stdin.write(line + '\n')
        packets = []
        while (answer := self.process.stdout.readline().split())[:1] == ['out']:
            packets.append(bytes.fromhex(answer[1]))
        if not answer:      # it says why
            self.process.wait()
            sys.exit(3)
        self.came = int(answer[1])
        return packets

    def shut(self, _):
        return self.ask('shut')

    def send(self):
        """Its user sends all its messages; what goes at once."""
        return self.ask('send %d %d' % (self.to_send, self.length))

    def next_data(self):
        """It sends the others as the windows allow."""
        return None

    def hear(self, packet, now):
        return [self.ask('at %d' % now) + self.ask('packet ' + packet.hex())]

    def ring(self, now):
        """What its timers send, where they go now."""
        if self.repeat_at is None or now < self.repeat_at:
            return None
        self.repeat_at = now + TICK if now < LAST else None
        return self.ask('at %d' % now)

    def received(self):
        """How many messages came in their order."""
        return self.came

    def finish(self):
        self.process.stdin.close()
        self.process.wait()


class Run(closing.Run):
    """The same, with this peer."""

    def tell(self, packets):
        for packet in packets:
            self.go('to end', packet)

    def open(self):
        """The four packets of the opening go over the path; then the peer's user sends."""
        lost, self.lost = self.lost, 0
        self.end.ask('connect %d %d' % (closing.OWN_TAG, closing.OWN_TSN))
        self.out()
        while self.end.ask('state', False) != 'state Established -' and self.step():
            pass
        self.lost, self.began = lost, self.now
        self.tell(self.peer.send())

    def close(self):
        when, how = super().close()
        self.peer.finish()
        return when - self.began, how


def both(asked, options):
    """What became of (1) with each seed, and of (2)."""
    def run(messages, length, rates, lost, seed):
        end = closing.End(options, None if asked.model else closing.PROGRAM)
        return Run(end, Usrsctp(asked.peer, asked.buffer, messages, length, seed), closing.DELAY, rates, lost, seed)

    return closing.print_both(options, asked.seeds,
                              lambda seed: closing.draining(run(0, 0, (None, None), asked.lost / 100, seed), *closing.QUEUED),
                              lambda: closing.receiving(run(*closing.TO_COME, closing.RATES, 0, 0)))


def unwanted(drained, received):
    """What isn't as wanted, in words."""
    found = [*drained, received]
    middle = statistics.median(when for when, _, _ in drained)
    said = {'not all completed': any(how != 'Completed' for _, how, _ in found),
            'messages lost': any(missing for _, _, missing in found),
            'the middle closes after %.1f s, not within %d s' % (middle / 1_000, WANTED // 1_000): middle > WANTED}
    return [words for words, holds in said.items() if holds]


def main():
    parser = argparse.ArgumentParser()
    parser.add_argument('peer')
    parser.add_argument('--model', action='store_true')
    parser.add_argument('--lost', type=int, default=10)
    parser.add_argument('--buffer', type=int, default=BUFFER)
    parser.add_argument('seeds', type=int, nargs='*', default=closing.SEEDS)
    asked = parser.parse_intermixed_args()
    both(asked, ())
    faults = unwanted(*both(asked, ('standard-closing',)))
    print('standard-closing: ' + ('; '.join(faults) or 'as wanted'))
    return 1 if faults else 0


if __name__ == '__main__':
    sys.exit(main())
