#!/usr/bin/env python3
"""Random scripts with limits of retransmissions: `limited.py FOLDER N [SEED]` writes N of them into the folder.

They are made as those of scripts.py are, and have a line `options`, behind which such limits may stand. In most of them one end then sends much,
and one event follows the other: SACKs that acknowledge all, a part, more or less by their blocks, one fragment lost three times over, several
in one packet; SHUTDOWNs; the timer; messages that are given up; packets that arrive or are lost. The same seed gives the same scripts.
"""

import struct
import sys

import model
import scripts
import wire
from wire import chunk


class Limited(scripts.Maker):
    """A script with limits, much of which goes between one end and nobody."""

    fragments = (4, 64, 500, 544, 1000, 1400)
    modes = ('data', 'data-pr', 'data-pr', 'idata', 'idata-pr', 'idata-pr')

    def __init__(self, seed, share=1):
        super().__init__(seed, share)
        self.x = 'A'

    # ---- Lines ----

    def options(self):
        super().options()
        if not self.faulty and not self.script.has_options:
            self.differs = True
            self.line('options', self.pick(('A', 'B', 'both')), self.pick(('delay', 'standard-closing')))

    def until(self):
        moment = super().until()
        if self.chance(0.5):
            return moment
        limit = self.pick((0, 0, 0, 1, 1, 2, 3, 65535) if self.chance(0.998) else ('', 65536, '01', '-', '1x1'))
        return '%sx%s' % ('' if moment == '-' else moment, limit)

    # ---- One end that sends ----

    @property
    def more(self):
        """Other events of such a script."""
        return ()

    def make(self):
        if self.chance(0.3):
            return super().make()
        self.start()
        if not self.faulty and self.sender is None:
            self.open_by_packets()
        self.x = self.pick('AAB')
        events = (self.sends, self.builds, self.expires, self.loses, self.all_of_it, self.moves, self.covers, self.takes_back, self.one_packet,
                  self.parts, self.waits, self.gives_up, self.exchange, self.shutdown_comes, self.again, self.silence, self.closes, *self.more)
        usual = (4, 4, 2, 5, 3, 3, 3, 1, 3, 2, 2, 1, 1, 0.1, 1, 0.1, 0.05, *[2 for _ in self.more])
        weights = [weight * self.pick((0, 0.3, 1, 1, 3)) for weight in usual]
        for always in (0, 1, 2, 3):
            weights[always] += 1
        for _ in range(self.pick((15, 40, 80, 160))):
            if self.faulty or self.sender is None or self.end(self.x).ended:
                break
            self.random.choices(events, weights)[0]()
            if self.chance(0.5):
                self.line('build', self.x)
        if not self.faulty and self.chance(0.3):
            self.finish()
        return '\n'.join(self.lines) + '\n'

    @property
    def sender(self):
        return self.end(self.x).sender

    def sends(self):
        fragment, streams = self.pair.configs[self.x].fragment, self.outbound(self.x)
        size = self.pick((1, 4, fragment, fragment, 2 * fragment + 1, min(20 * fragment, 20000), min(20 * fragment, 20000)))
        for _ in range(self.pick((1, 2, 5, 20)) if size < 5000 else self.pick((1, 2, 4))):
            self.line('send', self.x, self.random.randrange(min(streams, self.pick((1, 2, 1024)))), self.pick('oou'), 0, self.until(), '61' * size)

    def builds(self):
        for _ in range(self.pick((1, 2, 5, 30, 60))):
            if (self.line('build', self.x) or 'quiet').startswith('quiet'):
                break

    def waits(self):
        self.time(self.clock + self.pick((0, 1, 10, 40, 100, 300, 999)))

    def expires(self):
        moment = self.end(self.x).next_moment()
        if moment is not None:
            self.time(max(0, moment + self.pick((0, 0, 0, 0, -1, 1, 70000))))

    def gives_up(self):
        for _ in range(self.pick((1, 3))):
            self.line('abandon', self.x, self.ticket(self.x))

    def closes(self):
        self.line('shutdown', self.x)

    # ---- What comes to it ----

    def sack_of(self, index, blocks):
        rwnd = self.pick((65536, 16777216, 2**32 - 1) if self.chance(0.9) else (0, 1, 1000, 5000))
        return wire.sack_chunk(self.sender.tsn(index), rwnd, blocks, [])

    def comes(self, *chunks):
        if self.sender is not None and self.end(self.x).own_tag is not None:
            self.foreign(self.x, wire.packet(*self.ports(self.x), self.end(self.x).own_tag, chunks))

    def ports(self, y):
        return model.PORT[model.OTHER[y]], model.PORT[y]

    def sack_packet(self, index, *blocks):
        self.comes(self.sack_of(index, [(start, end) for start, end in blocks if start <= end < 65536]))

    def all_of_it(self):
        if self.chance(0.7):
            self.waits()
        self.sack_packet(self.sender.last_sent() if self.chance(0.9) else self.sender.last())

    def moves(self):
        self.sack_packet(min(self.sender.last(), self.sender.cum + self.pick((1, 1, 2, 3, 9))))

    def growing(self):
        """SACKs of a loss: one fragment or more is missing, what is behind it comes by and by."""
        sender = self.sender
        above, missing = sender.last_sent() - sender.cum, self.pick((1, 1, 1, 2, 5))
        ends = sorted(self.pick(range(missing + 1, above + 1)) for _ in range(self.pick((1, 2, 3, 3, 3, 4, 6)))) if above > missing else []
        return [(missing + 1, last) for last in ends]

    def loses(self):
        for block in self.growing():
            self.sack_packet(self.sender.cum, block)
            if self.chance(0.2):
                self.line('build', self.x)
            if self.end(self.x).ended:
                break

    def one_packet(self):
        """Such SACKs in one packet, with others behind them now and then."""
        chunks = [self.sack_of(self.sender.cum, [block]) for block in self.growing() if block[1] < 65536]
        chunks += self.pick(((), (), (self.sack(self.x),), (self.sack_of(self.sender.last_sent(), []),), (self.heartbeat(self.x),)))
        if chunks:
            self.comes(*chunks)

    def blocks(self, above):
        floor, blocks = 0, []
        for _ in range(self.pick((1, 1, 2, 4))):
            start = floor + self.pick((1, 2, 2, 3))
            end = start + self.pick((0, 0, 1, 3, 20))
            if end > above:
                break
            blocks.append((start, end))
            floor = end
        return blocks

    def covers(self):
        sender = self.sender
        upto = sender.last_sent() if self.chance(0.8) else sender.last()
        self.sack_packet(sender.cum, *self.blocks(upto - sender.cum))

    def takes_back(self):
        """All is covered, and then it isn't."""
        sender = self.sender
        if sender.last_sent() > sender.cum:
            self.sack_packet(sender.cum, (self.pick((1, 2)), sender.last_sent() - sender.cum))
            if self.chance(0.3):
                self.line('build', self.x)
            self.sack_packet(sender.cum)

    def parts(self):
        """CUM moves, and something behind it is missing."""
        sender = self.sender
        index = min(sender.last_sent(), sender.cum + self.pick((1, 1, 2, 5)))
        self.sack_packet(index, *[(start + 1, end + 1) for start, end in self.blocks(sender.last_sent() - index - 1)])

    def again(self):
        """The same once more."""
        self.sack_packet(self.sender.cum, *runs(self.sender.cum, self.sender.covered))

    def shutdown_comes(self):
        sender = self.sender
        index = self.pick((sender.cum, min(sender.cum + 1, sender.last()), sender.last_sent()))
        self.comes(chunk(wire.SHUTDOWN, struct.pack('>I', sender.tsn(index))))


def runs(cum, covered):
    """The blocks of these indexes."""
    blocks = []
    for index in sorted(covered):
        if index > cum:
            offset = index - cum
            if blocks and blocks[-1][1] + 1 == offset:
                blocks[-1] = (blocks[-1][0], offset)
            else:
                blocks.append((offset, offset))
    return blocks


def script(seed):
    return Limited(seed).make().encode()


if __name__ == '__main__':
    sys.exit(scripts.main(script))
