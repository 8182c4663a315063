"""Schedules of data channels that are closed and opened anew at once, on few streams, by users one of whom may fetch events rarely, while packets
are lost, doubled and late: none closes for ever (RFC 8831, 6.7)."""

from channel_law import OTHER, Broken, Law
from channel_lines import Ends
from channel_schedules import Schedule

QUIET_TURNS = 40


class ClosingLaw(Law):
    """The law of channels, and: between two contents that are reported on a stream without Closed between lies no accepted reset of their
    sender's; Closed is reported of a channel alone that was opened here or reported; and of a stream no more resets are reported by an endpoint
    than its peer accepted."""

    def __init__(self, ends):
        super().__init__(ends)
        self.resets, self.reports = {}, {}    # (side, stream): tickets before each accepted reset; how many were reported across
        self.tickets, self.last = {}, {}      # (side, stream, content): its ticket; (side, stream): that of the last one reported
        self.channels = set()                 # (side, stream) with a channel

    def watch(self, side):
        """Notes what is reset at this end, too, and what it is told."""
        super().watch(side)
        end = self.ends.endpoint(side)
        reset, take_reset = end.reset, end.take_reset

        def noted(stream):
            refusal = reset(stream)
            if not refusal:
                self.resets.setdefault((side, stream), []).append(len(end.sender.messages))
            return refusal

        def told():
            found = take_reset()
            if found is not None:
                self.report((OTHER[side], found[0]))
            return found

        end.reset, end.take_reset = noted, told

    def report(self, key):
        self.reports[key] = self.reports.get(key, 0) + 1
        if self.reports[key] > len(self.resets.get(key, ())):
            raise Broken('stream %d of %s: %d resets are reported of %d' % (key[1], key[0], self.reports[key], len(self.resets.get(key, ()))))

    def sent(self, side, stream, text, data, ticket):
        super().sent(side, stream, text, data, ticket)
        self.tickets[side, stream, bytes(data)] = ticket

    def told(self, side, event):
        name, stream, *more = event or ('nothing', None)
        if name == 'incoming':
            self.channels.add((side, stream))
        elif name == 'message':
            self.one_channel(side, stream, self.tickets[OTHER[side], stream, bytes(more[1])])
        super().told(side, event)
        if name == 'closed':
            self.last.pop((side, stream), None)
            if (side, stream) not in self.channels:
                raise Broken('stream %d: %s is told Closed of no channel' % (stream, side))
            self.channels.remove((side, stream))

    def one_channel(self, side, stream, ticket):
        """No reset lies between this content and the one before."""
        before = self.last.get((side, stream), ticket)
        low, high = min(before, ticket), max(before, ticket)
        if any(low <= at < high for at in self.resets.get((OTHER[side], stream), ())):
            raise Broken('stream %d: tickets %d and %d are on two channels, and on one at %s' % (stream, before, ticket, side))
        self.last[side, stream] = ticket


class Closings(Schedule):
    """Lines and answers, made along a run of the model."""

    def __init__(self, seed):
        super().__init__('closings %d' % seed)
        self.ends = Ends()
        self.eager = {side: self.pick(.02, .1, .6, 1) for side in 'AB'}
        self.loss, self.lateness, self.anew = self.pick(0, .1, .25), self.pick(0, .2, .4), self.pick(0, .6, .9)
        self.streams_each = self.pick(1, 2, 2, 3)
        self.agreeing = self.pick(0, 0, 0, 3, 12)
        self.law = ClosingLaw(self.ends)

    # ---- The course ----

    def make(self):
        self.begin()
        steps = [(self.open, 10), (self.send, 15), (self.close, 10), (self.fetch, 15), (self.poll, 20), (self.deliver, 26), (self.time, 4),
                 (self.negotiate, self.agreeing)]
        names, weights = zip(*steps)
        for _ in range(self.random.randint(60, 300)):
            self.random.choices(names, weights)[0]()
        self.finish()
        return self

    def begin(self):
        """In a tenth both take themselves for the DTLS client, so that each OPEN is refused."""
        kinds = ('client', 'client' if self.chance(.1) else 'server')
        options = ' '.join(['pr reset'] + [name for name in ('i-data', 'delay', 'fast-retransmit', 'congestion-control') if self.chance(.25)])
        for side, kind in zip('AB', kinds):
            self.do('new %s %s 1188 1100 65536 %d %d %s' % (side, kind, self.streams_each, self.streams_each, options))

    # ---- Steps ----

    def open(self, side=None):
        side = side or self.side()
        answer = self.do('%s open - %s - 0 61 -' % (side, self.order()))[0]
        if answer.startswith('stream'):
            self.law.channels.add((side, int(answer.split(' ')[1])))

    def negotiate(self):
        """A channel that one side takes for agreed on, and often closes unused: the other side may have none."""
        side, stream = self.side(), self.random.randrange(self.streams_each)
        if self.do('%s negotiated %d o -' % (side, stream))[0] == 'ok':
            self.law.channels.add((side, stream))
            if self.chance(.7):
                self.do('%s close %d' % (side, stream))

    def send(self, side=None):
        side = side or self.side()
        used = self.used_streams(side)
        if used:
            self.serial += 1
            self.do('%s send %d text %08x' % (side, self.random.choice(used), self.serial))

    def close(self, side=None):
        side = side or self.side()
        used = self.used_streams(side)
        if used:
            self.do('%s close %d' % (side, self.random.choice(used)))

    def fetch(self):
        side = self.side()
        if self.chance(self.eager[side]):
            self.fetch_some(side, self.random.randint(1, 9))

    def fetch_some(self, side, many):
        """Where a channel is closed the next one is often opened at once, used, and closed."""
        for _ in range(many):
            answer = self.do('%s event' % side)[0]
            if answer == 'nothing':
                return
            if answer.startswith('closed') and self.chance(self.anew):
                self.open(side)
                if self.chance(.7):
                    self.send(side)
                if self.chance(.5):
                    self.close(side)

    def poll(self):
        answer = self.do('%s poll' % self.side())[0]
        if answer.startswith('packet'):
            self.in_flight.append(int(answer.split(' ')[1]))

    def deliver(self):
        if not self.in_flight:
            return
        number = self.in_flight.pop(self.random.randrange(len(self.in_flight)) if self.chance(self.lateness) else 0)
        if not self.chance(self.loss):
            self.arrive(number)
        if self.chance(.05):
            self.in_flight.append(number)

    def time(self):
        self.do('at %d' % max(min(self.moments(), default=0), self.ends.now))

    def moments(self):
        return [m for m in (self.ends.endpoint(side).next_moment() for side in 'AB') if m is not None]

    # ---- The end ----

    def finish(self):
        """Nothing is lost any more, and each user fetches all; then no channel closes for ever, and none is one side's alone."""
        for _ in range(QUIET_TURNS):
            before = len(self.ends.packets)
            self.do('exchange')
            for side in 'AB':
                self.do('%s events' % side)
            moments = self.moments()
            if moments:
                self.do('at %d' % max(min(moments), self.ends.now))
            elif len(self.ends.packets) == before and not self.is_moving():
                break
        else:
            raise Broken('packets go to and fro for ever')
        for side in 'AB':
            self.do('%s state' % side)
        if all(self.ends.endpoint(side).ended is None for side in 'AB'):
            if not self.agreeing:
                self.law.complete()
            self.need_closed()

    def need_closed(self):
        for number in range(self.streams_each):
            streams = [self.ends.ends[side].stream(number) for side in 'AB']
            if any(stream.is_used() and not stream.may_send() or stream.old is not None for stream in streams):
                raise Broken('stream %d closes for ever' % number)
            if not self.agreeing and streams[0].may_send() != streams[1].may_send():
                raise Broken('one side alone has the channel of stream %d' % number)
