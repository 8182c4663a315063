#!/usr/bin/env python3
"""Random scripts over all lines: `scripts.py FOLDER N [SEED]` writes N of them into the folder.

Each script is written beside a run of the model, so that it can name real tickets, packets of the
bags, tags and moments. Half of them have lines `options`, by which the two ends differ; in a third of
those each end has a clock of its own. The same seed gives the same scripts.
"""

import copy
import os
import random
import struct
import sys

import model
import wire
from endpoint import CLOSED, COOKIE_WAIT, LISTEN
from wire import chunk, item

SIDES = 'AB'
EDGE_16 = (0, 1, 2, 1023, 1024, 1025, 32767, 32768, 65535)
EDGE_32 = (0, 1, 2, 2**31 - 1, 2**31, 2**31 + 1, 2**32 - 2, 2**32 - 1)
UNKNOWN_TYPES = (12, 13, 15, 0x3f, 0x40 + 1, 0x7f, 0x80, 0x82, 0xbf, 0xc1, 0xc3, 0xff)
UNKNOWN_PARAMETERS = (1, 2, 0x3fff, 0x4000, 0x7fff, 0x8000, 0x8002, 0xbfff, 0xc001, 0xc006, 0xffff)
SILENT = (5, 6, 9, 11, 12)
# How far one clock is ahead of the other at first.
LEADS = (0, 1, 500, 60_000, 60_001, 3_600_000, 2**32, 2**63, 2**64 - 10**6)
# Lines of one clock that are faulty behind a line `options`; elsewhere `later` and `moment` are no commands.
CLOCK_FAULTS = (('later',), ('later', 'A'), ('later', 'C', 5), ('later', 'B', 2**64), ('later', 'A', '01'), ('later', 'A', '-'), ('later', 5, 'A'),
                ('later', 'A', 5, 5), ('later', 'A', ''), ('Later', 'A', 5), ('moment',), ('moment', 'a'), ('moment', 'AB'), ('moment', 'A', 5),
                ('moment', ''), ('moments', 'A'))


class Maker:
    """One script: its lines, and the model run beside it."""

    modes = ('data', 'data-pr', 'idata', 'idata-pr')
    limits = (576, 577, 580, 600, 1000, 1499, 1500)
    fragments = (4, 5, 7, 8, 64, 100, 500, 540, 1000, 1400)
    buffers = (65536, 65537, 70000, 131072, 16777216)
    streams = (1, 1, 2, 3, 5, 32, 200, 1024)
    names = tuple(name for name in model.OPTIONS if name not in model.PACED)

    def __init__(self, seed, share=0.5):
        """`share` of the scripts have lines `options`, which are chosen apart from all else."""
        self.random, self.apart = random.Random(seed), random.Random('options %d' % seed)
        self.timed, self.has_two_clocks = random.Random('clocks %d' % seed), False
        self.share, self.differs = share, False
        self.lines, self.outcome = [], None
        self.script = model.Script(self.heard)
        self.faulty = False
        self.untils = []
        self.choose_weights()

    def heard(self, line):
        self.outcome = line

    # ---- Small choices ----

    def pick(self, things):
        return self.random.choice(list(things))

    def chance(self, share):
        return self.random.random() < share

    def number(self, edges, top):
        return self.pick(edges) if self.chance(0.5) else self.random.randint(0, top)

    def bytes(self, length):
        return bytes(self.random.randrange(256) for _ in range(length))

    def side(self):
        return self.pick(SIDES)

    @property
    def pair(self):
        return self.script.pair

    def end(self, x):
        return self.pair.ends[x]

    # ---- Lines ----

    def line(self, *words):
        """Writes one line and runs it."""
        text = ' '.join(str(word) for word in words)
        self.lines.append(text)
        self.outcome = None
        try:
            self.script.line(text.encode(), len(text) + 1)
        except model.LineFault:
            self.faulty = True
        return self.outcome

    def choose_weights(self):
        """Each script has its own mixture of acts."""
        acts = (self.send, self.build, self.deliver, self.exchange, self.abandon, self.take, self.at,
                self.draw, self.foreign_changed, self.foreign_made, self.shutdown, self.abort, self.connect,
                self.open, self.fault, self.comment, self.flood, self.silence, self.spread)
        usual = (8, 10, 12, 3, 2.5, 3, 3, 0.2, 1.5, 3, 0.3, 0.03, 0.03, 0.03, 0.02, 0.05, 0.5, 0.15, 0.3)
        self.acts = acts
        self.weights = [weight * self.pick((0, 0.3, 1, 1, 1, 3)) for weight in usual]
        for always in (0, 1, 2):
            self.weights[always] = max(self.weights[always], usual[always] / 3)

    def make(self):
        if self.chance(0.02):
            self.fault()
        if not self.faulty:
            self.start()
        for _ in range(self.pick((10, 30, 60, 120, 250))):
            if self.faulty or all(self.end(x).ended for x in SIDES) and self.chance(0.2):
                break
            self.random.choices(self.acts, self.weights)[0]()
        if not self.faulty and self.chance(0.4):
            self.finish()
        return '\n'.join(self.lines) + ('' if self.chance(0.05) else '\n')

    def start(self):
        if self.chance(0.05):
            self.comment()
        limit = self.pick(self.limits)
        most = min(1400, (limit - 32) // 4 * 4)
        fragment = self.pick((4, 5, 7, 8, 64, 100, 500, most - 1, most, self.random.randint(4, most)))
        self.line('pair', limit, min(fragment, most), self.pick(self.buffers), self.pick(self.streams), self.pick(self.modes),
                  *self.delay())
        self.options()
        self.choose_clocks()
        way = self.random.random()
        if way < 0.5:
            self.open()
            if self.outcome == 'refused 1' and self.apart.random() < 0.9:
                self.open_by_packets()
        elif way < 0.9:
            self.open_by_packets()

    def delay(self):
        """The word of a pair line for SACKs that wait, in a third of them."""
        return ('delay',) if self.chance(1 / 3) else ()

    # ---- Two ends that differ ----

    def options(self):
        """Some lines `options` behind the pair, or none."""
        plain, self.random = self.random, self.apart
        if self.chance(self.share):
            self.differs = True
            for _ in range(self.pick((1, 1, 2, 2, 3, 5))):
                if self.chance(0.1):
                    self.comment()
                named = self.pick(('A', 'B', 'both'))
                self.line('options', *(self.wrong_options(named) if self.chance(0.01) else self.right_options(named)))
                if self.faulty:
                    break
            while not self.faulty and self.is_alike() and self.chance(0.9):
                self.line('options', *self.right_options(self.pick('AB')))
        self.random = plain

    def is_alike(self):
        values = [dict(vars(config), own_port=0, peer_port=0) for config in self.pair.configs.values()]
        return values[0] == values[1]

    def right_options(self, named):
        """The words of such a line, by which these ends stay right."""
        while True:
            words = [named]
            for name in self.draw_options():
                words += [name.decode(), *getattr(self, name.decode().replace('-', '_') + '_words', tuple)()]
            trial = copy.copy(self.pair)
            trial.configs = {x: copy.copy(config) for x, config in trial.configs.items()}
            try:
                trial.set_options(*model.split_options([str(word).encode() for word in words]))
                return words
            except model.LineFault:
                pass

    def draw_options(self):
        """The names of the options of a line, in their order."""
        return self.random.sample(self.names, self.pick((1, 1, 2, 3, 5))) * self.pick((1, 1, 1, 1, 1, 2))

    def limit_words(self):
        return (self.pick(self.limits),)

    def fragment_words(self):
        return (self.pick((*self.fragments, self.random.randint(4, 1400))),)

    def buffer_words(self):
        return (self.pick(self.buffers),)

    def streams_words(self):
        """Often those by which the two would still agree if they are opened without packets."""
        count = self.pair.configs['A'].streams_alone
        more = [streams for streams in self.streams if streams >= count] + [count]
        words = [count, self.pick(more)] if self.chance(0.5) else [self.pick(self.streams), self.pick(self.streams)]
        self.random.shuffle(words)
        return words

    def mode_words(self):
        return (self.pick(self.modes),)

    def wrong_options(self, named):
        return self.pick((
            (), (named,), ('C', 'delay'), ('a', 'delay'), (named, 'limt', 600), (named, 'limit'), (named, 'streams', 3),
            (named, 'limit', 600, 5), (named, '', 'delay'), (named, 'delay', ''), (named, 'Delay'), (named, 'limit', ''),
            (named, 'limit', '', 'delay'), (named, 'limit', 'delay'), (named, 'limit', '0600'), (named, 'limit', '-1'),
            (named, 'limit', 575), (named, 'limit', 1501), (named, 'limit', 65536), (named, 'fragment', 3), (named, 'fragment', 1401),
            (named, 'limit', 576, 'fragment', 545), (named, 'limit', 576, 'fragment', 544), (named, 'buffer', 65535),
            (named, 'buffer', 16777217), (named, 'buffer', 2**32), (named, 'streams', 0, 1), (named, 'streams', 1, 0),
            (named, 'streams', 1025, 1), (named, 'streams', 1, 1025), (named, 'mode', 'DATA'), (named, 'mode', 'idata-pr-x'),
            (named, 'limit', 5, 'limit', 600, 'fragment', 500), (named, 'fragment', 3, 'delay'), (named, 'streams', 3, 7, 'streams', 0, 0),
            (named, 'delay', 'delay'), (named, 'limit', 600, 'fragment', 568), (named, 'limit', 600, 'fragment', 569),
        ))

    # ---- Two clocks ----

    def choose_clocks(self):
        """In a third of the scripts with a line `options` each end has a clock of its own, one often far ahead."""
        if not self.faulty and self.script.has_options and self.timed.random() < 1 / 3:
            self.has_two_clocks = True
            lead = self.timed.choice(LEADS)
            if lead:
                self.goes_on(self.timed.choice(SIDES), lead)

    @property
    def clock(self):
        """The time that a moment is chosen from: that of one of the clocks."""
        clocks = list(self.pair.clocks.values())
        return self.timed.choice(clocks) if self.has_two_clocks else clocks[0]

    def time(self, moment):
        """The time goes on: to this moment at both ends, or where each has its own clock as far at one, or at one by one."""
        if not self.has_two_clocks:
            self.line('at', moment)
            return
        if self.timed.random() < 0.05:
            self.line('at', min(moment, *self.pair.clocks.values()) + self.timed.choice((0, 1, 1000)))
            return
        passed = min((moment - clock for clock in self.pair.clocks.values()), key=abs)
        for x in self.timed.choice(('A', 'B', 'AB', 'AB', 'BA', 'BA')):
            now, due = self.pair.clocks[x], self.end(x).next_moment()
            some = self.timed.choice((now + passed, now + passed, now + passed, due, due, now + 1, now + 250, now - 5))
            if self.timed.random() < 0.01:
                some = now + self.timed.choice(LEADS)
            self.goes_on(x, min(max(0, now + passed if some is None else some), 2**64 - 1))

    def goes_on(self, x, moment):
        """The clock of one end goes on, and the end is notified of it: both, or one of them."""
        way = self.timed.random()
        if way < 0.8:
            self.line('later', x, moment)
        if way > 0.25:
            self.line('moment', x)

    def outbound(self, x):
        """How many streams an end has to its peer: as configured, or as agreed on where the two differ."""
        sender = self.end(x).sender if self.differs else None
        return sender.streams if sender is not None and sender.streams else self.pair.configs[x].outbound

    def inbound(self, x):
        receiver = self.end(x).receiver if self.differs else None
        return receiver.streams if receiver is not None and receiver.streams else self.pair.configs[x].inbound

    def tag(self):
        return self.pick((1, 2, 7, 9, 2**31, 2**32 - 1, self.random.randint(1, 2**32 - 1)))

    def tsn(self):
        return self.pick((0, 1, 100, 2**31 - 1, 2**31, 2**32 - 1, 2**32 - 3, self.random.randint(0, 2**32 - 1)))

    def open_by_packets(self):
        """The four packets of an opening, now and then lost, repeated or late."""
        mess = self.pick((0, 0, 0.1, 0.3))
        self.connect()
        for _ in range(8):
            if self.chance(0.5):
                self.draw()
            for x in SIDES:
                if not self.chance(mess):
                    self.line('build', x)
                bag = self.pair.bags[x]
                if bag and not self.chance(mess):
                    self.line('deliver', x, len(bag))
                if bag and self.chance(mess):
                    self.line('deliver', x, self.random.randint(1, len(bag)))
            if self.chance(mess):
                self.at()
            if self.chance(mess):
                self.pick((self.foreign_changed, self.foreign_made))()
            if all(self.end(x).state not in (CLOSED, LISTEN, COOKIE_WAIT, 'CookieEchoed') for x in SIDES):
                break

    def connect(self):
        self.line('connect', self.tag(), self.tsn())

    def open(self):
        self.line('open')

    def draw(self):
        self.line('draw', self.tag(), self.tsn())

    def comment(self):
        self.line(self.pick(('', '#', '# a word', '#at 5')))

    # ---- Messages ----

    def size(self, x):
        fragment = self.pair.configs[x].fragment
        edges = (1, 1, 1, 2, 3, fragment - 1, fragment, fragment + 1, 2 * fragment, 2 * fragment + 1, 3 * fragment)
        if self.chance(0.02):
            return self.pick((0, self.long(x), 65537))
        if self.chance(0.1):
            return self.random.randint(1, min(6000, 200 * fragment))
        return self.pick(edges)

    def long(self, x):
        """A long message, seldom one of very many fragments."""
        fragment = self.pair.configs[x].fragment
        return 65536 if fragment >= 64 or self.chance(0.02) else 1000 * fragment

    def until(self):
        if self.chance(0.7):
            return '-'
        clock = self.clock
        moment = self.pick((0, clock, clock + 1, clock + 100, clock + 1000, clock + 5000, 2**64 - 1))
        if self.has_two_clocks:
            moment = min(moment, 2**64 - 1)
        self.untils.append(moment)
        return moment

    def send(self):
        x = self.side()
        streams = self.outbound(x)
        stream = self.random.randrange(streams) if self.chance(0.97) else self.pick((streams, 65535))
        payload_id = 0 if self.chance(0.5) else self.number(EDGE_32, 2**32 - 1)
        self.line('send', x, stream, self.pick('oou'), payload_id, self.until(), self.bytes(self.size(x)).hex() or '-')

    def ticket(self, x):
        sender = self.end(x).sender
        count = len(sender.messages) if sender else 0
        if count == 0 or self.chance(0.05):
            return self.pick((0, count + 1, 2**32 - 1))
        return self.random.randint(max(1, count - 8), count) if self.chance(0.7) else self.random.randint(1, count)

    def abandon(self):
        x = self.side()
        for _ in range(self.pick((1, 1, 1, 3, 10))):
            self.line('abandon', x, self.ticket(x))

    def spread(self):
        """One byte on each of many streams; what went out is often abandoned, as far as it goes."""
        x = self.side()
        streams, kinds = self.outbound(x), self.pick(('o', 'u', 'ou'))
        first = self.ticket(x)
        for n in range(self.pick((20, 150, 300))):
            self.line('send', x, n % streams, self.pick(kinds), 0, '-', '61')
        for _ in range(self.pick((1, 5, 40, 40))):
            if (self.line('build', x) or 'quiet').startswith('quiet'):
                break
        if self.chance(0.7) and self.end(x).sender is not None:
            for ticket in range(max(1, first), len(self.end(x).sender.messages) + 1):
                self.line('abandon', x, ticket)

    def take(self):
        x = self.side()
        streams = self.inbound(x)
        self.line('take', x, self.random.randrange(streams) if self.chance(0.95) else self.pick((streams, 65535)))

    # ---- Packets ----

    def build(self):
        x = self.side()
        for _ in range(self.pick((1, 1, 2, 5))):
            if (self.line('build', x) or 'quiet').startswith('quiet'):
                break

    def deliver(self):
        x = self.side()
        bag = self.pair.bags[x]
        if not bag or self.chance(0.01):
            if self.chance(0.1):
                self.line('deliver', x, self.pick((0, len(bag) + 1, 2**32 - 1)))
            return
        for _ in range(self.pick((1, 1, 2, 4))):
            back = self.pick((0, 0, 0, 1, 2, 3, self.random.randrange(len(bag))))
            self.line('deliver', x, max(1, len(bag) - back))

    def exchange(self):
        """Both ends build and deliver for a while, with some loss. True where all is quiet then."""
        loss, quiet = self.pick((0, 0, 0.2)), 0
        for _ in range(self.pick((1, 2, 6))):
            for x in SIDES:
                self.line('build', x)
                quiet = quiet + 1 if (self.outcome or '').startswith('quiet') else 0
                if quiet == 2:
                    return True
                if (self.outcome or '').startswith('sent') and not self.chance(loss):
                    self.line('deliver', x, len(self.pair.bags[x]))
                    if (self.outcome or '').startswith('answer'):
                        self.line('deliver', model.OTHER[x], len(self.pair.bags[model.OTHER[x]]))
        return False

    def flood(self):
        """Much data for one end, of messages that aren't whole or aren't taken."""
        y = self.side()
        receiver = self.end(y).receiver
        if receiver is None or self.chance(0.5):
            self.line('send', y, 0, 'o', 0, '-', self.bytes(self.pick((self.long(y) // 2, self.long(y)))).hex())
            self.exchange()
            return
        stream, flags = 0, self.pick((0, 1, 2, 3, 4, 6, 7))
        for n in range(self.pick((1, 2, 3))):
            tsn = receiver.tsn(receiver.c + 1 + self.pick((0, 0, 1, n)))
            number = self.number_near(y, stream, bool(flags & 4), 32 if receiver.interleave else 16)
            data = self.bytes(self.pick((100, 5535, 5536, 30000, 40000)))
            self.foreign(y, wire.packet(*self.ports(y), self.end(y).own_tag, [
                wire.data_chunk(receiver.interleave, flags, tsn, stream, number, n, data)]))

    def silence(self):
        """One end speaks on and nothing arrives, sometimes until it gives up."""
        x = self.side()
        for _ in range(self.pick((3, 9, 12))):
            moment = self.end(x).next_moment()
            if moment is not None:
                self.time(moment)
            self.line('build', x)

    def moments(self):
        clock = self.clock
        moments = [clock, clock + 1, clock + 200, clock + 1000, max(0, clock - 5)] + self.untils[-3:]
        for x in SIDES:
            expiry = self.end(x).next_moment()
            if expiry is not None:
                moments += [expiry] * 3 + [expiry - 1, expiry + 1, expiry + self.random.randint(0, 70000)]
        if self.chance(0.01):
            moments += [2**64 - 1, 2**64 - 1001, 2**63]
        return [m for m in moments if 0 <= m < 2**64]

    def at(self):
        for _ in range(self.pick((1, 1, 1, 2, 12 if self.chance(0.1) else 1))):
            self.time(self.pick(self.moments()))
            if self.chance(0.5):
                self.build()

    def shutdown(self):
        self.line('shutdown', self.side())

    def abort(self):
        x = self.side()
        limit = self.pair.configs[x].limit
        length = self.pick((0, 1, 5, limit - 21, limit - 20, limit - 19))
        self.line('abort', x, self.bytes(length).hex() or '-')

    def finish(self):
        """Everything is exchanged, and often closed."""
        if self.chance(0.7):
            self.shutdown()
        for _ in range(self.pick((4, 12, 40))):
            if self.exchange() and self.chance(0.7):
                break
            if self.chance(0.3):
                self.at()
        for x in SIDES:
            receiver = self.end(x).receiver
            waiting = {message.stream for message in receiver.waiting} if receiver else set()
            for stream in sorted(waiting | {0, self.inbound(x) - 1}):
                while not self.faulty and (self.line('take', x, stream) or 'empty').startswith('message'):
                    pass

    # ---- Packets of strangers and changed ones ----

    def foreign(self, y, data):
        if len(data) < 60000:
            self.line('foreign', y, data.hex() or '-')

    def foreign_changed(self):
        """A packet of a bag, changed."""
        x = self.side()
        bag = self.pair.bags[x]
        if not bag:
            return
        data = bytearray(bag[self.random.randrange(max(0, len(bag) - 6), len(bag))])
        change = self.pick((self.flip, self.cut, self.retype, self.retag, self.relength, self.reports, self.stretch))
        data = bytes(change(data, x))
        if change not in (self.flip, self.cut) or self.chance(0.6):
            data = wire.with_checksum(data) if len(data) >= 12 else data
        self.foreign(model.OTHER[x] if self.chance(0.95) else x, data)

    def flip(self, data, _):
        for _ in range(self.pick((1, 1, 2))):
            data[self.random.randrange(len(data))] ^= 1 << self.random.randrange(8)
        return data

    def cut(self, data, _):
        return data[:self.random.randrange(len(data) + 1)]

    def stretch(self, data, _):
        return data + self.bytes(self.pick((1, 2, 3, 4, 8)))

    def retype(self, data, _):
        data[12] = self.pick(list(wire.KNOWN) + list(UNKNOWN_TYPES))
        if self.chance(0.3):
            data[13] = self.pick((0, 1, 2, 3, 4, 7, 8, 255))
        return data

    def retag(self, data, x):
        data[4:8] = struct.pack('>I', self.some_tag(model.OTHER[x]))
        return data

    def relength(self, data, _):
        length, = struct.unpack('>H', data[14:16])
        length = self.pick((0, 3, 4, 8, length - 1, length + 1, length + 4, len(data) - 12, 65535)) % 65536
        data[14:16] = struct.pack('>H', length)
        return data

    def reports(self, data, _):
        """Unknown chunks put before what the packet holds."""
        return data[:12] + self.unknown_chunk() + data[12:]

    def some_tag(self, y):
        end = self.end(y)
        tags = [0, 1, 2, self.tag()] + [t for t in (end.peer_tag,) if t is not None]
        return end.own_tag if end.own_tag is not None and self.chance(0.8) else self.pick(tags)

    def ports(self, y):
        right = (model.PORT[model.OTHER[y]], model.PORT[y])
        return right if self.chance(0.97) else self.pick(((right[1], right[0]), (0, right[1]), (right[0], 80)))

    def foreign_made(self):
        """A packet made here: chunks of every type, mostly under the right tag."""
        y = self.side()
        makers = self.makers()
        if self.chance(0.5):
            makers = makers[:8]
        chunks = [self.pick(makers)(y) for _ in range(self.pick((1, 1, 1, 2, 3, 6)))]
        if self.chance(0.9) and any(c[:1] in (b'\x01', b'\x02', b'\x0e') for c in chunks):
            chunks = [self.pick([c for c in chunks if c[:1] in (b'\x01', b'\x02', b'\x0e')])]
        tag = self.some_tag(y)
        if chunks[0][:1] == b'\x01':
            tag = 0 if self.chance(0.9) else tag
        if chunks[0][:1] == b'\x0a' and len(chunks[0]) == 76 and self.chance(0.9):
            tag, = struct.unpack('>I', chunks[0][16:20])
        if chunks[0][:1] in (b'\x06', b'\x0e') and chunks[0][1] & 1 and self.chance(0.7):
            tag = self.end(y).peer_tag or tag
        self.foreign(y, wire.packet(*self.ports(y), tag, chunks))

    def makers(self):
        """What makes a chunk for an end; in half of the packets the first eight alone."""
        return [self.data, self.data, self.data, self.sack, self.sack, self.forward, self.forward,
                self.shutdown_chunk, self.heartbeat, self.error, self.abort_chunk, self.unknown_chunk,
                self.plain, self.cookie_echo, self.init, self.init]

    def interleaved(self, y):
        on = self.end(y).receiver is not None and self.end(y).receiver.interleave
        return on if self.chance(0.995) else not on

    def tsn_near(self, y):
        receiver = self.end(y).receiver
        if receiver is None:
            return self.tsn()
        ahead = self.pick((0, 1, 1, 1, 1, 2, 2, 3, 4, 5, 9, -1, -2, 32766, 32767, 32768, 2**31 - 1, 2**31, 2**31 + 1))
        return (receiver.tsn(receiver.c) + ahead) % 2**32

    def stream_near(self, y):
        receiver = self.end(y).receiver
        streams = receiver.streams if receiver else 1
        if self.chance(0.95) and streams:
            return self.random.randrange(min(streams, 3))
        return self.pick((streams, 65535)) % 65536

    def number_near(self, y, stream, unordered, width):
        receiver = self.end(y).receiver
        if receiver is None or stream >= receiver.streams:
            return self.number(EDGE_16, 2**width - 1) % 2**width
        base = receiver.top[stream] if unordered else receiver.next[stream]
        ahead = self.pick((0, 0, 0, 1, 1, 2, 3, -1, -2, 2**(width - 1) - 1, 2**(width - 1), 2**(width - 1) + 1))
        return (base + ahead) % 2**width

    def data(self, y):
        interleave = self.interleaved(y)
        stream, unordered = self.stream_near(y), self.chance(0.4)
        flags = self.pick((0, 1, 2, 3, 3, 3)) | (4 if unordered else 0) | self.pick((0, 0, 0, 8, 0xf0))
        number = self.number_near(y, stream, unordered, 32 if interleave else 16)
        word = self.pick((0, 1, 1, 2, 3, 5, 2**32 - 1))
        length = self.pick((1, 1, 1, 2, 3, 4, 5, 100, 0 if self.chance(0.03) else 6, 30000 if self.chance(0.2) else 7))
        return wire.data_chunk(interleave, flags, self.tsn_near(y), stream, number, word, self.bytes(length))

    def tsn_sent(self, y):
        sender = self.end(y).sender
        if sender is None:
            return self.tsn(), 0
        last = sender.last()
        index = self.pick((sender.cum, sender.cum, min(sender.cum + 1, last), last, self.random.randint(0, last)))
        if self.chance(0.01):
            index = self.pick((last + 1, last + 2**31 - 1, last + 2**31, last + 2**31 + 1))
        return sender.tsn(index), max(0, last - index)

    def sack(self, y):
        cumulative, above = self.tsn_sent(y)
        blocks, floor = [], 0
        for _ in range(self.pick((0, 0, 1, 1, 2, 4))):
            start = floor + self.pick((1, 1, 2, 3))
            end = start + self.pick((0, 0, 0, 1, 2))
            if end > above and self.chance(0.97):
                break
            blocks.append((start, end))
            floor = end
        if blocks and self.chance(0.03):
            blocks[-1] = self.pick(((0, 1), (0, 0), (blocks[-1][1] + 1, blocks[-1][1]), blocks[0]))
        rwnd = self.pick((0, 1, 1000, 65536, 65536, 65536, 2**32 - 1))
        blocks = [(s % 65536, e % 65536) for s, e in blocks]
        return wire.sack_chunk(cumulative, rwnd, blocks, [self.tsn() for _ in range(self.pick((0, 0, 1, 3)))])

    def forward(self, y):
        interleave = self.interleaved(y)
        skips = []
        for _ in range(self.pick((0, 1, 1, 2, 3))):
            stream, unordered = self.stream_near(y), interleave and self.chance(0.4)
            skips.append((stream, unordered, self.number_near(y, stream, unordered, 32 if interleave else 16)))
        return wire.forward_chunk(interleave, self.tsn_near(y), skips)

    def shutdown_chunk(self, y):
        return chunk(wire.SHUTDOWN, struct.pack('>I', self.tsn_sent(y)[0])) if self.chance(0.3) else self.data(y)

    def heartbeat(self, y):
        limit = self.pair.configs[y].limit
        length = self.pick((0, 1, 4, 9, limit - 17, limit - 16, limit - 15, limit - 12))
        return chunk(self.pick((wire.HEARTBEAT, wire.HEARTBEAT, wire.HEARTBEAT_ACK)), self.bytes(length))

    def causes(self):
        return wire.item_list([item(self.pick((1, 2, 3, 3, 9, 13, 65535)), self.bytes(self.pick((0, 1, 4))))
                               for _ in range(self.pick((0, 1, 1, 2)))])

    def error(self, _):
        return chunk(wire.ERROR, self.causes())

    def abort_chunk(self, y):
        return chunk(wire.ABORT, self.causes(), self.pick((0, 1))) if self.chance(0.08) else self.error(y)

    def unknown_chunk(self, y='A'):
        limit = self.pair.configs[y].limit
        length = self.pick((0, 0, 1, 3, 4, 50, limit - 25, limit - 24, limit - 23, limit - 20))
        return chunk(self.pick(UNKNOWN_TYPES), self.bytes(length), self.pick((0, 1, 255)))

    def plain(self, _):
        kind = self.pick((wire.SHUTDOWN_ACK, wire.COOKIE_ACK, wire.SHUTDOWN_COMPLETE))
        return chunk(kind, b'', self.pick((0, 1, 2)))

    def parameters(self, y, cookie):
        limit = self.pair.configs[y].limit
        made = [item(wire.STATE_COOKIE, cookie)] if cookie is not None else []
        for _ in range(self.pick((0, 1, 2, 3, 5))):
            made.append(self.pick((
                lambda: item(wire.FORWARD_SUPPORTED, self.bytes(self.pick((0, 0, 3)))),
                lambda: item(wire.SUPPORTED_EXTENSIONS, bytes(self.pick(((64,), (64, 192, 194), (192,), (194,), (130,), (64, 130, 192, 194), ())))),
                lambda: item(self.pick(UNKNOWN_PARAMETERS), self.bytes(self.pick((0, 1, 4, 10, limit - 150, limit - 28)))),
                lambda: item(self.pick(SILENT), self.bytes(4)),
                lambda: item(wire.UNRECOGNIZED, self.bytes(4)),
                lambda: item(wire.STATE_COOKIE, self.bytes(self.pick((0, 5, 72)))),
            ))())
        if self.chance(0.4):
            self.random.shuffle(made)
        counted = wire.item_list(made)
        return wire.pad(counted) if self.chance(0.2) else counted

    def init(self, y):
        reply = self.end(y).state == COOKIE_WAIT and self.chance(0.9) or self.chance(0.1)
        limit = self.pair.configs[y].limit
        cookie = None
        if reply and self.chance(0.85):
            cookie = self.bytes(self.pick((0, 1, 72, limit - 17, limit - 16, limit - 15)))
        streams = (0 if self.chance(0.08) else self.pick((1, 2, 32, 1023, 1024, 1025, 65535)) for _ in range(2))
        value = struct.pack('>IIHHI', 0 if self.chance(0.08) else self.tag(),
                            self.pick((0, 1, 65536, 2**32 - 1)), *streams, self.tsn())
        return chunk(wire.INIT_ACK if reply else wire.INIT, value + self.parameters(y, cookie))

    def cookie_echo(self, y):
        """A cookie of a bag, changed or whole, or one made with the key."""
        found = [data[36:108] for data in self.pair.bags['B'] if data[12:13] == b'\x02' and len(data) >= 108]
        if found and self.chance(0.7):
            cookie = bytearray(self.pick(found))
            if self.chance(0.4):
                cookie[self.random.randrange(72)] ^= 1 << self.random.randrange(8)
            if self.chance(0.1):
                cookie = cookie[:-1]
            return chunk(wire.COOKIE_ECHO, bytes(cookie))
        end = self.end('B')
        clock = self.pair.clocks['B']
        tags = [(end.own_tag, end.peer_tag)] if end.own_tag is not None and end.peer_tag is not None else []
        own_tag, peer_tag = self.pick(tags * 3 + [(self.tag(), self.tag())])
        made = wire.Cookie(self.pick((0, clock, clock, max(0, clock - 60000), max(0, clock - 60001), min(clock + 5, 2**64 - 1))),
                           self.pick((5001, 5001, 5001, 5000)), self.pick((5000, 5000, 5000, 5001)),
                           own_tag, peer_tag, self.tsn(), self.tsn(), self.pick((0, 65536, 2**32 - 1)),
                           self.pick((1, 2, 32, 1024)), self.pick((1, 2, 32, 1024)), self.pick((0, 1, 2, 3, 3, 4, 7, 8)))
        return chunk(wire.COOKIE_ECHO, made.seal(model.KEY))

    # ---- Faulty lines ----

    def fault(self):
        if self.has_two_clocks and self.timed.random() < 0.5:
            self.line(*self.timed.choice(CLOCK_FAULTS))
            return
        x = self.side()
        self.line(*self.pick((
            ('bild', x), ('build',), ('build', x, 'A'), ('build', 'C'), ('build', 'a'), ('deliver', x, '-1'),
            ('deliver', x, '01'), ('deliver', x, 2**32), ('deliver', x, ''), ('at', 2**64), ('at', '1e3'), ('at',),
            ('draw', 0, 1), ('draw', 1, 2**32), ('connect', 0, 1), ('connect', 1), ('open', 1), (' open',),
            ('open ',), ('send', x, 65536, 'o', 0, '-', '61'), ('send', x, 0, 'O', 0, '-', '61'),
            ('send', x, 0, 'o', 2**32, '-', '61'), ('send', x, 0, 'o', 0, 2**64, '61'), ('send', x, 0, 'o', 0, '-', '6'),
            ('send', x, 0, 'o', 0, '-', '6A'), ('send', x, 0, 'o', 0, '-', ''), ('send', x, 0, 'o', 0, '-'),
            ('send', x, 0, 'o', 0, '-', '61', ''), ('abandon', x, 2**32), ('abandon', x), ('take', x, 65536),
            ('take', x, '+1'), ('shutdown',), ('shutdown', 'AB'), ('abort', x, '0g'), ('abort', x), ('reset', x), ('reset', x, 65536), ('reset', 'C', 0),
            ('reset', x, 0, 0), ('resets',), ('resets', x, 0), ('resets', 'a'), ('foreign', x, '0'),
            ('foreign', x, 'AB'), ('foreign', x, ''), ('pair', 1500, 1400, 65536, 1, 'data'),
            ('pair', 575, 500, 65536, 1, 'data'), ('pair', 1501, 500, 65536, 1, 'data'), ('pair', 576, 545, 65536, 1, 'data'),
            ('pair', 576, 3, 65536, 1, 'data'), ('pair', 1500, 1401, 65536, 1, 'data'), ('pair', 576, 500, 65535, 1, 'data'),
            ('pair', 576, 500, 16777217, 1, 'data'), ('pair', 576, 500, 65536, 0, 'data'), ('pair', 576, 500, 65536, 1025, 'data'),
            ('pair', 576, 500, 65536, 1, 'DATA'), ('pair', 576, 500, 65536, 1), ('pair', 576, 500, 65536, 1, 'data', 'x'),
            ('pair', 576, 500, 65536, 1, 'data', 'Delay'), ('pair', 576, 500, 65536, 1, 'data', 'delay', 'delay'),
            ('#' * 140001,), ('#' * 140000,), ('x' * 140001,), ('foreign', x, '0' * 139991), ('foreign', x, '0' * 139990),
            ('\t',), (' ',), ('Build', x), ('open\r',),
        )))


def script(seed):
    return Maker(seed).make()


def main(made=lambda seed: script(seed).encode()):
    if len(sys.argv) not in (3, 4):
        sys.exit('%s FOLDER N [SEED]' % os.path.basename(sys.argv[0]))
    folder, count = sys.argv[1], int(sys.argv[2])
    seed = int(sys.argv[3]) if len(sys.argv) == 4 else 1
    os.makedirs(folder, exist_ok=True)
    for n in range(seed, seed + count):
        with open(os.path.join(folder, '%06d.script' % n), 'wb') as out:
            out.write(made(n))


if __name__ == '__main__':
    main()
