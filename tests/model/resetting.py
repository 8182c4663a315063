#!/usr/bin/env python3
"""Random scripts with resets of streams (RFC 6525): `resetting.py FOLDER N [SEED]` writes N of them into the folder.

They are made as those of mixed.py are. In nearly all both ends may reset their streams; some twentieth of the lines are `reset` and `resets`,
and strangers send a RE-CONFIG of every form: requests that are next, early, repeated or out of range, for any last TSN, of streams that are there
and others; requests of other kinds; responses with any number and result; values that are cut, or no list. The same seed gives the same scripts.
"""

import struct
import sys

import mixed
import scripts
import wire
from resets import IN_PROGRESS, PERFORMED
from wire import chunk, item

RESULTS = (0, PERFORMED, PERFORMED, PERFORMED, 2, 3, 4, 5, IN_PROGRESS, IN_PROGRESS, 7, 2**32 - 1)


class Resetting(mixed.Mixed):
    """A script whose ends reset their streams."""

    # ---- Lines ----

    def options(self):
        super().options()
        plain, self.random = self.random, self.apart
        if not self.faulty and self.script.is_behind and self.chance(0.95):
            self.differs = True
            self.line('options', self.pick(('both', 'both', 'both', 'both', 'both', 'both', 'A', 'B')), 'reset')
        self.random = plain

    def choose_weights(self):
        super().choose_weights()
        self.acts += (self.resets_some, self.tells, self.resets_and_sends)
        self.weights += [weight * self.pick((0.3, 1, 1, 3)) for weight in (3, 2, 1.5)]

    @property
    def more(self):
        return (*super().more, self.resets_of_x, self.tells, self.asks, self.answers, self.crosses)

    def resets_of(self, x):
        """One stream of this end is reset, seldom many."""
        streams = self.outbound(x)
        if self.chance(0.05):
            first = self.random.randrange(streams)
            for stream in range(first, min(streams, first + self.pick((5, 40, 300)))):
                self.line('reset', x, stream)
            return
        few = self.random.randrange(min(streams, self.pick((1, 2, 2, 1024))))
        self.line('reset', x, few if self.chance(0.97) else self.pick((streams, 65535)))

    def resets_some(self):
        for x in self.pick(('A', 'B', 'AB')):
            self.resets_of(x)

    def resets_of_x(self):
        self.resets_of(self.x)

    def tells(self):
        x = self.side()
        for _ in range(self.pick((1, 2, 5))):
            if (self.line('resets', x) or 'no-reset').startswith('no-reset'):
                break

    def resets_and_sends(self):
        """A stream is reset; what is sent on it is refused until that is done, and then it goes."""
        x, y = self.pick(('AB', 'BA'))
        stream = self.random.randrange(min(self.outbound(x), 3))
        self.line('reset', x, stream)
        for _ in range(self.pick((1, 2, 4))):
            self.line('send', x, stream, self.pick('ou'), 0, '-', self.bytes(self.pick((1, 1, 20))).hex())
            if self.chance(0.7):
                self.exchange()
            if self.chance(0.3):
                self.line('resets', y)
            if self.chance(0.2):
                self.at()
        for _ in range(self.pick((0, 2))):
            self.line('take', y, stream)

    # ---- RE-CONFIG ----

    def makers(self):
        return [self.reconfig, self.reconfig, *super().makers()]

    def reconfig(self, y):
        """One of some parameters; its value is cut now and then."""
        items = [self.parameter(y) for _ in range(self.pick((1, 1, 1, 2, 3, 8)))]
        value = wire.item_list(items)
        if self.chance(0.1):
            value = wire.pad(value)
        if self.chance(0.1):
            value = value[:self.random.randrange(len(value) + 1)]
        if self.chance(0.03):
            value += self.bytes(self.pick((1, 2, 4)))
        return chunk(wire.RE_CONFIG, value, self.pick((0, 0, 0, 1, 255)))

    def parameter(self, y):
        return self.pick((self.request, self.request, self.response, self.response, self.other_request, self.any_parameter))(y)

    def number_of_request(self, y):
        receiver = self.end(y).receiver
        if receiver is None:
            return self.tsn()
        return (receiver.resets.last_request() + self.pick((1, 1, 1, 1, 1, 0, 0, 0, 2, -1, 2**31))) % 2**32

    def streams_of_request(self, y):
        """Those of which a request says that they are reset."""
        receiver = self.end(y).receiver
        streams = receiver.streams if receiver is not None and receiver.streams else 1
        few = [self.random.randrange(min(streams, 3)) for _ in range(self.pick((0, 1, 1, 1, 2, 3)))]
        if self.chance(0.03):
            few = list(range(min(streams, self.pick((40, 256, 400)))))
        return few if self.chance(0.95) else few + [self.pick((streams, 1024, 65535))]

    def request(self, y):
        """An Outgoing SSN Reset Request."""
        receiver = self.end(y).receiver
        ahead = self.pick((0, 0, 0, 0, 0, -1, -1, -5, 1, 1, 2, 5, 2**31 - 1, 2**31, 2**31 + 1))
        last = self.tsn() if receiver is None else (receiver.tsn(receiver.c) + ahead) % 2**32
        made = wire.reset_request(self.number_of_request(y), self.tsn(), last, self.streams_of_request(y))
        return self.resized(made) if self.chance(0.1) else made

    def resized(self, made):
        """The same with a value cut short, or with a byte more."""
        kind, value = struct.unpack('>H', made[:2])[0], made[4:] + b'\0'
        return item(kind, value[:self.pick((len(value), self.random.randrange(len(value)), self.random.randrange(14)))])

    def other_request(self, y):
        """One of the requests that are denied."""
        kind = self.pick((wire.INCOMING_RESET, wire.TSN_RESET, wire.ADD_OUTGOING, wire.ADD_INCOMING))
        value = struct.pack('>I', self.number_of_request(y)) + bytes(8)
        return item(kind, value[:self.pick((4, 6, 8, 8, 12, 3, 5, 7, 0))])

    def response(self, y):
        sender = self.end(y).sender
        number = self.tsn() if sender is None else (sender.resets.number() + self.pick((0, 0, 0, 0, 0, 1, -1))) % 2**32
        made = wire.reset_response(number, self.pick(RESULTS))
        return self.resized(made) if self.chance(0.1) else made

    def any_parameter(self, _):
        return item(self.pick((0, 1, 12, 19, 7, 0x8008, 0xc000, 0xffff)), self.bytes(self.pick((0, 4, 12))))

    # ---- What comes to one end that sends ----

    def asks(self):
        """The peer asks, once or more."""
        if self.sender is not None:
            for _ in range(self.pick((1, 1, 2))):
                self.comes(wire.reconfig_chunk([self.request(self.x)]))

    def answers(self):
        """The peer answers what waits."""
        if self.sender is not None:
            resets = self.sender.resets
            result = self.pick((PERFORMED, PERFORMED, PERFORMED, *RESULTS))
            self.comes(wire.reconfig_chunk([wire.reset_response(resets.number(), result)]))

    def crosses(self):
        """Both in one packet, with an acknowledgement of all."""
        if self.sender is not None:
            number = self.sender.resets.number()
            items = [wire.reset_response(number, self.pick(RESULTS)), self.request(self.x)]
            self.random.shuffle(items)
            chunks = [self.sack_of(self.sender.last_sent(), []), wire.reconfig_chunk(items)]
            self.random.shuffle(chunks)
            self.comes(*chunks)


def script(seed):
    return Resetting(seed).make().encode()


if __name__ == '__main__':
    sys.exit(scripts.main(script))
