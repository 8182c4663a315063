"""Random schedules of data channels: lines of `crates/sctp_channel_rows`, made along a run of the model."""

import random

import dcep
from channel_law import Law
from channel_lines import Ends, repeated
from channels import Channels

QUIET_TURNS = 60


class Schedule:
    """Lines and answers, made along a run of the model."""

    def __init__(self, seed, length=None):
        self.random, self.seed, self.length = random.Random(seed), seed, length
        self.ends, self.given, self.lines, self.in_flight, self.gone, self.serial = Ends(), [], [], [], [], 0
        self.pool = range(9)              # the streams that are named
        self.law = Law(self.ends)

    # ---- Lines ----

    def do(self, line):
        self.given.append(line)
        self.lines.append(line)
        times, call = repeated(line)
        for _ in range(times):
            answer = self.ends.line(call)
        self.lines += answer
        return answer

    def chance(self, share):
        return self.random.random() < share

    def pick(self, *choices):
        return self.random.choice(choices)

    # ---- The ends ----

    def config(self, streams):
        limit = self.pick(576, 576, 1_188, 1_500)
        words = [limit, self.random.randint(24, limit - 36 if limit < 1_440 else 1_400), self.pick(65_536, 65_536, 70_000, 1_048_576), *streams]
        options = [('pr', .85), ('i-data', .3), ('reset', .9), ('delay', .3), ('fast-retransmit', .2), ('congestion-control', .25)]
        return ' '.join(map(str, words + [name for name, share in options if self.chance(share)]))

    def streams(self):
        return [self.pick(1, 2, 3, 4, 4, 6, 8, 8, 64) for _ in 'oi']

    def begin(self):
        kinds = self.random.choices([('client', 'server'), ('server', 'client'), ('client', 'client'), ('bare', 'server'), ('client', 'bare')],
                                    [60, 15, 3, 12, 10])[0]
        if self.chance(.5):
            streams = self.pick(1, 2, 4, 4, 6, 8, 8, 1_024)
            self.pool = range(9) if self.chance(.5) else [self.random.randrange(streams) for _ in range(8)]
            config = self.config([streams] * 2)
            for side, kind in zip('AB', kinds):
                self.do('new %s %s %s' % (side, kind, config))
        else:
            for side, kind, role in zip('AB', kinds, ('caller', 'listener')):
                self.do('new %s %s %s %s' % (side, kind, self.config(self.streams()), role))
            self.do('A connect')
            if self.chance(.9):
                self.do('exchange')

    def is_bare(self, side):
        return not isinstance(self.ends.ends[side], Channels)

    def make(self):
        self.begin()
        steps = [(self.open, 7), (self.negotiate, 5), (self.send, 28), (self.burst, 2), (self.close, 6), (self.poll, 26), (self.deliver, 40),
                 (self.late, 2), (self.time, 8), (self.events, 18), (self.exchange, 3), (self.look, 7), (self.give_up, 2), (self.end_it, .15)]
        if self.chance(.4):
            self.pool = self.random.sample(range(3), 2)
            steps += [(self.negotiate, 14), (self.open, 5), (self.close, 12), (self.exchange, 10), (self.send, 10), (self.event, 10), (self.lose, 6)]
        names, weights = zip(*steps)
        for _ in range(self.length or self.random.randint(20, 110)):
            self.random.choices(names, weights)[0]()
        if self.chance(.6):
            self.finish()
        return self

    # ---- Steps ----

    def side(self):
        return self.pick('A', 'B')

    def used_streams(self, side):
        over = self.ends.ends[side]
        return [n for n, one in over.streams.items() if one.may_send()] if isinstance(over, Channels) else []

    def used_stream(self, side):
        """Mostly one with a channel."""
        used = self.used_streams(side)
        return self.random.choice(used) if used and self.chance(.92) else self.named()

    def named(self):
        return self.random.choice(self.pool)

    def order(self):
        return self.pick('o', 'u')

    def limits(self):
        return self.random.choices(['-', 'x%d' % self.random.randint(0, 3), '%d' % self.pick(0, 1, 100, 1_500), self.pick('x65536', '65536', '65535')],
                                   [40, 30, 25, 4])[0]

    def content(self):
        """Each other than those before, but empty ones."""
        self.serial += 1
        size = self.random.choices([0, self.random.randint(4, 12), self.random.randint(13, 600), self.random.randint(601, 5_000)], [6, 70, 20, 4])[0]
        return self.serial.to_bytes(4, 'big').hex() + '%02x' % (self.serial % 256) * (size - 4) if size else '-'

    def open(self):
        side = self.side()
        if self.is_bare(side):
            return self.raw(side)
        stream = '-' if self.chance(.6) else str(self.named())
        label = self.pick('-', '61', '63686174', 'c3bc', 'fffe', '+%d' % self.random.randint(0, 900))
        self.do('%s open %s %s %s %d %s %s' % (side, stream, self.order(), self.limits(), self.pick(0, 128, 256, 65_535), label, self.pick('-', '70')))

    def negotiate(self):
        words = '%d %s %s' % (self.named(), self.order(), self.limits())
        for side in self.random.sample('AB', 2):
            if not self.is_bare(side) and self.chance(.85):
                self.do('%s negotiated %s' % (side, words))

    def send_words(self, side):
        if self.is_bare(side):
            return 'raw %d %s %d %s' % (self.named(), self.order(), self.pick(51, 53), self.content())
        return 'send %d %s %s' % (self.used_stream(side), self.pick('text', 'binary'), self.content())

    def send(self):
        side = self.side()
        if self.is_bare(side) and self.chance(.6):
            return self.raw(side)
        if not self.is_bare(side) and not self.used_streams(side) and self.chance(.85):
            return self.events() if self.chance(.6) else self.open()
        self.do('%s %s' % (side, self.send_words(side)))

    def burst(self):
        side = self.side()
        count = self.random.randint(2, 20) if self.chance(.93) else 1_100
        self.do('*%d %s %s' % (count, side, self.send_words(side)))

    def raw(self, side):
        self.do('%s raw %d %s %d %s' % (side, self.named(), self.order(), *self.odd_message()))

    def odd_message(self):
        """(payload protocol identifier, digits) of a message of DCEP, whole or not, or of another one."""
        payload_id = self.random.choices([50, 51, 53, 56, 57, self.pick(0, 52, 54, 55, 58, 2**32 - 1)], [60, 8, 8, 4, 4, 16])[0]
        data = bytes(self.random.randbytes(self.random.randint(1, 20)))
        if payload_id == 50 and self.chance(.85):
            kind, label = self.pick(0, 1, 2), self.random.randbytes(self.random.randint(0, 9))
            opening = dcep.Opening(self.chance(.5), kind, self.pick(0, 1, 3, 500, 70_000, 2**32 - 1), self.random.randint(0, 65_535), label, self.pick(b'', b'p'))
            data = self.mutated(self.pick(opening.written(), opening.written(), bytes([dcep.ACK])))
        return payload_id, data.hex()

    def mutated(self, data):
        how = self.random.random()
        if how < .5:
            return data
        if how < .62:
            return data[:self.random.randint(1, len(data))]
        if how < .72:
            return data + self.random.randbytes(self.random.randint(1, 4))
        place = self.random.randrange(min(len(data), 12))
        return data[:place] + bytes([self.random.choice([0, 1, 2, 3, 4, 127, 128, 129, 255, self.random.randrange(256)])]) + data[place + 1:]

    def close(self):
        side = self.side()
        if self.is_bare(side):
            self.do('%s %s' % (side, self.pick('reset %d' % self.named(), 'take %d' % self.named(), 'told')))
        else:
            if self.used_streams(side) or self.chance(.2):
                self.do('%s close %d' % (side, self.used_stream(side)))

    def poll(self):
        side = self.side()
        for _ in range(self.random.randint(1, 4)):
            answer = self.do('%s poll' % side)[0]
            if not answer.startswith('packet'):
                return
            self.in_flight.append(int(answer.split(' ')[1]))

    def deliver(self):
        """Of those in flight mostly the first one, often lost, sometimes to be delivered again."""
        if not self.in_flight:
            return self.poll()
        place = 0 if self.chance(.6) else self.random.randrange(len(self.in_flight))
        number = self.in_flight.pop(place)
        self.gone.append(number)
        if self.chance(.85):
            self.arrive(number)

    def arrive(self, number):
        answer = self.do('deliver %d' % number)[0]
        if answer.startswith('packet'):
            self.in_flight.append(int(answer.split(' ')[1]))

    def lose(self):
        """All that is in flight to one side."""
        side = self.side()
        lost = [number for number in self.in_flight if self.ends.packets[number - 1][0] == side]
        self.in_flight = [number for number in self.in_flight if number not in lost]
        self.gone += lost

    def late(self):
        if self.gone:
            self.arrive(self.random.choice(self.gone))

    def time(self):
        moment = self.ends.endpoint(self.side()).next_moment()
        if moment is None or self.chance(.4):
            moment = self.ends.now + self.random.randint(1, 300)
        self.do('at %d' % max(moment, self.ends.now))

    def events(self):
        side = self.side()
        if self.is_bare(side):
            return self.close()
        self.do('%s %s' % (side, 'events' if self.chance(.7) else 'event'))

    def look(self):
        """At what waits to be sent, and its threshold."""
        side = self.side()
        if not self.is_bare(side) and self.used_streams(side):
            stream = self.used_stream(side)
            self.do('%s %s' % (side, 'low %d %d' % (stream, self.pick(0, 1, 10, 100, 3_000)) if self.chance(.5) else 'buffered %d' % stream))

    def give_up(self):
        """Mostly one of the last messages."""
        side = self.side()
        sender = self.ends.endpoint(side).sender
        last = len(sender.messages) if sender is not None else 0
        self.do('%s abandon %d' % (side, max(last - self.random.randint(0, 6), 0)))

    def event(self):
        side = self.side()
        if not self.is_bare(side):
            self.do('%s event' % side)

    def exchange(self):
        self.do('exchange')
        self.in_flight.clear()

    def end_it(self):
        self.do('%s %s' % (self.side(), self.pick('shutdown', 'abort 6279')))

    def finish(self):
        """Nothing is lost any more, until nothing happens. An association that lives has told what was sent on reliable channels."""
        for _ in range(QUIET_TURNS):
            self.do('exchange')
            for side in 'AB':
                if not self.is_bare(side):
                    self.do('%s events' % side)
            moments = [m for m in (self.ends.endpoint(side).next_moment() for side in 'AB') if m is not None]
            if moments:
                self.do('at %d' % max(min(moments), self.ends.now))
            elif not self.is_moving():
                break
        for side in 'AB':
            self.do('%s state' % side)
        if all(self.ends.endpoint(side).state == 'Established' for side in 'AB') and not self.is_moving() and not moments:
            self.law.complete()

    def is_moving(self):
        return any(isinstance(over, Channels) and over.end.ended is None and any(one.ack_owed or one.reset_owed for one in over.streams.values())
                   for over in self.ends.ends.values())


class Odd(Schedule):
    """Random messages of a bare end at one with channels, a thousand each."""

    def make(self):
        kinds = self.pick(('bare', 'server'), ('client', 'bare'))
        for side, kind in zip('AB', kinds):
            self.do('new %s %s 1188 1100 1048576 1024 1024 pr reset' % (side, kind))
        odd, taker = ('A', 'B') if kinds[0] == 'bare' else ('B', 'A')
        for _ in range(40):
            if self.chance(.5):
                self.do('%s open - o - 0 61 -' % taker)
            for _ in range(25):
                stream = self.random.choice([self.random.randint(0, 7), self.random.randint(0, 1_023)])
                self.do('%s raw %d %s %d %s' % (odd, stream, self.order(), *self.odd_message()))
            for _ in range(self.random.randint(0, 6)):
                self.do('%s reset %d' % (odd, self.random.randint(0, 7)))
            self.do('exchange')
            self.do('%s events' % taker)
            self.do('exchange')
            self.do('%s events' % taker)
        return self
