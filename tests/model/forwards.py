#!/usr/bin/env python3
"""Random scripts with abandoned windows: `forwards.py FOLDER N [SEED]` writes N of them into the folder.

They are made as those of scripts.py are. A sends many messages and abandons most of them, so that a FORWARD is due; then one event follows the
other (messages, abandoned ones, lifetimes that end, SACKs that move the cumulative TSN, that repeat the last one, that acknowledge more or less
by their blocks, the timer, packets that arrive), and after each of them A builds what it has.
"""

import sys

import scripts
import wire


class Forwards(scripts.Maker):
    """A script in which a FORWARD is built after each kind of event."""

    def make(self):
        self.start()
        self.window()
        events = (self.sends, self.abandons, self.lifetimes, self.moves, self.repeats, self.covers, self.uncovers, self.timer,
                  self.builds, self.arrives)
        weights = [weight * self.pick((0, 1, 1, 3)) for weight in (2, 3, 1, 2, 4, 3, 3, 2, 2, 1)]
        weights[4] += 1
        for _ in range(self.pick((20, 60, 150))):
            if self.faulty or self.end('A').sender is None or self.end('A').ended:
                break
            self.random.choices(events, weights)[0]()
            self.line('build', 'A')
        if not self.faulty and self.chance(0.3):
            self.finish()
        return '\n'.join(self.lines) + '\n'

    modes, limits, fragments, buffers = ('data-pr', 'idata-pr'), (576, 577, 600, 1500), (4, 64, 500), (16777216,)
    streams = (1, 3, 32, 200, 400, 1024)

    def start(self):
        limit = self.pick(self.limits)
        fragment = self.pick(self.fragments)
        self.line('pair', limit, fragment, 16777216, self.pick(self.streams), self.pick(self.modes), *self.delay())
        self.options()
        self.open() if self.chance(0.7) else self.open_by_packets()
        if self.outcome == 'refused 1':
            self.open_by_packets()

    def window(self):
        self.messages(self.pick((1, 10, 60, 200, 500)))
        for _ in range(self.pick((1, 5, 80))):
            if (self.line('build', 'A') or 'quiet').startswith('quiet'):
                break
        self.give_up(self.pick((0.5, 0.9, 1)))

    def messages(self, count):
        # an endpoint may be configured without a stream to send on; then it opens no association
        streams, kinds, fragment = max(1, self.outbound('A')), self.pick(('o', 'u', 'ou')), self.pair.configs['A'].fragment
        for _ in range(count):
            until = '-' if self.chance(0.8) else self.clock + self.pick((0, 1, 500, 5000))
            size = self.pick((1, 1, 1, fragment, 2 * fragment + 1))
            self.line('send', 'A', self.random.randrange(streams), self.pick(kinds), 0, until, '61' * size)

    def give_up(self, share):
        sender = self.end('A').sender
        for ticket in range(1, len(sender.messages) + 1 if sender else 0):
            if self.chance(share):
                self.line('abandon', 'A', ticket)

    def sends(self):
        self.messages(self.pick((1, 2, 9)))

    def abandons(self):
        count = len(self.end('A').sender.messages)
        first = self.random.randint(1, max(1, count))
        for ticket in range(first, min(count, first + self.pick((0, 1, 30))) + 1):
            self.line('abandon', 'A', ticket)

    def lifetimes(self):
        self.time(self.clock + self.pick((0, 1, 500, 5000)))

    def moves(self):
        sender = self.end('A').sender
        last = sender.last()
        self.sack_for(min(last, sender.cum + self.pick((1, 1, 2, 10, last))), [])

    def repeats(self):
        for _ in range(self.pick((1, 1, 3))):
            self.sack_for(self.end('A').sender.cum, [])
            self.line('build', 'A')

    def covers(self):
        sender = self.end('A').sender
        above, floor, blocks = sender.last() - sender.cum, 0, []
        for _ in range(self.pick((1, 1, 2, 5))):
            start = floor + self.pick((1, 2, 3, 20))
            end = start + self.pick((0, 1, 5, 40))
            if end > above:
                break
            blocks.append((start, end))
            floor = end
        self.sack_for(sender.cum, blocks)

    def uncovers(self):
        self.covers()
        self.line('build', 'A')
        self.sack_for(self.end('A').sender.cum, [])

    def sack_for(self, index, blocks):
        end = self.end('A')
        packet = wire.packet(*self.ports('A'), end.own_tag, [wire.sack_chunk(end.sender.tsn(index), self.pick((0, 1000, 65536)), blocks, [])])
        self.foreign('A', packet)

    def ports(self, y):
        return scripts.model.PORT[scripts.model.OTHER[y]], scripts.model.PORT[y]

    def timer(self):
        moment = self.end('A').next_moment()
        if moment is not None:
            self.time(moment)

    def builds(self):
        for _ in range(self.pick((1, 3, 30))):
            if (self.line('build', 'A') or 'quiet').startswith('quiet'):
                break

    def arrives(self):
        if self.pair.bags['A']:
            self.line('deliver', 'A', len(self.pair.bags['A']))
            if not (self.line('build', 'B') or 'quiet').startswith('quiet'):
                self.line('deliver', 'B', len(self.pair.bags['B']))


def script(seed):
    return Forwards(seed).make().encode()


if __name__ == '__main__':
    sys.exit(scripts.main(script))
