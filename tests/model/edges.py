#!/usr/bin/env python3
"""Random scripts with every limit at an edge: `edges.py FOLDER N [SEED]` writes N of them into the folder.

They are made as those of scripts.py are. Packets, fragments, buffers and streams are the least or the greatest, at each end apart in half of
them; tags and first TSNs stand beside 0, 2^31 and 2^32, time begins near the last moment now and then, messages have one byte, 65,536 or one more, and numbers in lines and
in packets lie beside where they wrap.
"""

import sys

import scripts

LAST_MOMENT = 2**64 - 1


class Edges(scripts.Maker):
    """A script whose limits are all at their edges."""

    limits, fragments, buffers, streams = (576, 1500), (4, 544, 1400), (65536, 16777216), (1, 1024)

    def start(self):
        limit = self.pick(self.limits)
        most = min(1400, (limit - 32) // 4 * 4)
        self.line('pair', limit, self.pick((4, most)), self.pick(self.buffers), self.pick(self.streams), self.pick(self.modes), *self.delay())
        self.options()
        self.choose_clocks()
        if self.chance(0.4):
            self.line('at', LAST_MOMENT - self.pick((0, 1, 199, 200, 201, 999, 1000, 1001, 59999, 60000, 60001, 61000, 10**6)))
        way = self.random.random()
        if way < 0.25:
            self.open()
            if self.outcome == 'refused 1':
                self.open_by_packets()
        elif way < 0.95:
            self.open_by_packets()

    def tag(self):
        return self.pick((1, 2, 2**31 - 1, 2**31, 2**32 - 2, 2**32 - 1))

    def tsn(self):
        return self.pick((0, 1, 2, 2**31 - 2, 2**31 - 1, 2**31, 2**31 + 1)
                         + tuple(2**32 - n for n in (1, 1, 2, 3, 5, 9, 40, 32767, 32768)))

    def fragment_words(self):
        return (self.pick(self.fragments),)

    def size(self, x):
        fragment = self.pair.configs[x].fragment
        long = 65536 if fragment >= 64 or self.chance(0.05) else 300 * fragment
        edge = self.pick((0, 65537, long)) if self.chance(0.1) else 1
        return self.pick((1, 1, edge, fragment - 1, fragment, fragment + 1, 2 * fragment, 2 * fragment + 1))

    def until(self):
        clock = self.clock
        moments = [0, clock, clock + 1, clock + 1000, LAST_MOMENT - 1, LAST_MOMENT]
        moment = self.pick(('-', '-', '-', *[m for m in moments if m <= LAST_MOMENT]))
        if moment != '-':
            self.untils.append(moment)
        return moment

    def send(self):
        x = self.side()
        last = self.outbound(x) - 1
        stream = self.pick((0, 0, last, last, last, last + 1 if self.chance(0.3) else 0, 65535 if self.chance(0.3) else last))
        self.line('send', x, stream, self.pick('oou'), self.pick((0, 1, 2**31, 2**32 - 1)), self.until(),
                  self.bytes(self.size(x)).hex() or '-')

    def take(self):
        x = self.side()
        last = self.inbound(x) - 1
        self.line('take', x, self.pick((0, 0, last, last, last, last + 1, 65535)))

    def ticket(self, x):
        sender = self.end(x).sender
        count = len(sender.messages) if sender else 0
        return self.pick((0, 1, max(1, count - 1), count, count, count + 1, 2**32 - 1, 2**32, 2**64 - 1))

    def moments(self):
        due = [self.end(x).next_moment() for x in scripts.SIDES]
        due = [moment for moment in due if moment is not None]
        near = [moment + n for moment in due + self.untils[-2:] for n in (-1, 0, 0, 0, 1)]
        clock = self.clock
        near += [0, clock, clock + 1]
        if self.chance(0.05):
            near += [LAST_MOMENT - 1, LAST_MOMENT, 2**63, 2**63 - 1]
        return [moment for moment in near if 0 <= moment <= LAST_MOMENT]

    def stream_near(self, y):
        receiver = self.end(y).receiver
        streams = receiver.streams if receiver else 1
        return self.pick((0, 0, 0, max(0, streams - 1), max(0, streams - 1), streams if self.chance(0.1) else 0,
                          65535 if self.chance(0.1) else 0)) % 65536


def script(seed):
    return Edges(seed).make().encode()


if __name__ == '__main__':
    sys.exit(scripts.main(script))
