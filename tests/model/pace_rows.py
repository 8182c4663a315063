#!/usr/bin/env python3
"""Rows of round trips and misses with known answers, run on the model's sender and its pace.

The numbers follow from the rules (RFC 9260 sections 6.3.1, 6.3.3 and 7.2.4), by hand or by proof: they are those of `PaceExamples` and `AgainExamples` of
sctp_outcomes. Prints what differs and how many passed; status 1 where one differs.
"""

import sys

import wire
from endpoint import Writer
from limited_rows import row, run
from pace import Before, Pace, Trips, Waits
from sender import Sender


def at_least(least):
    return Waits(least=least)


# ---- Round trips (6.3.1) ----

def trips(*measured):
    made = Trips()
    for trip in measured:
        made.measure(trip)
    return made


def of_trips(made):
    return made.eight, made.four


def smoothed(eight, four):
    made = Trips()
    made.eight, made.four = eight, four
    return made


row('the first trip', of_trips(trips(100)), (800, 200))
row('the same again', of_trips(trips(100, 100)), (800, 150))
row('a later one, RTTVAR by the SRTT before it', of_trips(trips(100, 100, 200)), (900, 213))
row('the RTO of these', [trips(*[100, 100, 200][:n]).rto(at_least(0)) for n in (1, 2, 3)], [300, 250, 325])
row('RTO.Min', [trips(*[100, 100, 200][:n]).rto(at_least(1000)) for n in (1, 2, 3)], [1000] * 3)
row('none measured, whatever RTO.Min is', [trips().rto(at_least(least)) for least in (0, 1000, 5000, 2**32 - 1)], [1000] * 4)
row('no variance counts as four ticks', smoothed(80, 0).rto(at_least(0)), 14)
row('RTO.Max', [trips(60000).rto(at_least(0)), trips(100).rto(at_least(2**32 - 1)), trips(0).rto(at_least(0))], [60000, 60000, 4])
row('RTO.Initial and another RTO.Max', [trips().rto(Waits(400, 0, 2000)), trips(900).rto(Waits(400, 0, 2000)), trips(100).rto(Waits(400, 0, 2000))],
    [400, 2000, 300])


# ---- Misses (7.2.4): five fragments of 4 bytes, TSNs 1 to 5; a packet takes one chunk, of 20 bytes, so that the window is 80 ----

class Told:
    """A sender and its pace, acknowledgement by acknowledgement."""

    def __init__(self, room=(20, 200), data=bytes(range(1, 21)), limit=None, partial=True, controls=True):
        self.sender, self.pace = Sender(False, 1, 1, 4, 100, partial), Pace(controls, 20, 500)
        self.sender.send(0, True, 0, data, None, limit)
        self.told = None
        for moment, one in enumerate(room):
            self.fill(moment, one, narrow=False)

    def fill(self, moment, room=200, narrow=True):
        """The indexes of a packet with room for so many bytes of chunks, which the pace may narrow."""
        writer, last = Writer(wire.HEADER + room), self.sender.last_sent()
        if narrow:
            writer.narrow(self.pace.room(room, self.sender))
        self.sender.fill(writer)
        self.pace.sent(moment, last, self.sender, self.sender.again, bool(writer.chunks))
        return [wire.Piece(wire.Chunk(one)).tsn for one in writer.chunks]

    def sends(self, *data, room=200):
        """These messages, and a packet of them, whatever the window is."""
        for one in data:
            self.sender.send(0, True, 0, one, None)
        self.fill(61, room, narrow=False)
        return self

    def sack(self, now, cumulative, *blocks, rwnd=100):
        """Whether it computes the RTO anew, and restarts the timer."""
        before = Before(self.sender)
        chunk, _ = wire.read_chunk(wire.sack_chunk(cumulative, rwnd, blocks, []), 0)
        assert self.sender.on_sack(wire.Sack(chunk)) is None
        self.told = self.pace.heard(now, before, self.sender)
        return self

    def expires(self):
        self.pace.expired(self.sender)
        self.sender.on_timeout()
        return self

    @property
    def marked(self):
        return [i for i in range(1, self.sender.last() + 1) if self.sender.plan[i].marked]

    @property
    def misses(self):
        """The three largest, falling; the exit point."""
        misses = self.pace.misses
        return (*misses.highest[::-1], misses.exit)

    @property
    def window(self):
        """cwnd, ssthresh, partial_bytes_acked, the limit of bursts; a rescue may go, a packet went, it filled the window."""
        window = self.pace.window
        return window.cwnd, window.ssthresh, window.acked, window.burst, (window.rescue, window.was_sent, window.is_full)

    def went(self, *indexes):
        return [self.pace.misses.went.get(i, i) for i in indexes]

    def missed(self, *indexes):
        return [i for i in indexes if self.pace.misses.is_missed(i)]

    def rto(self, least, wait):
        return self.pace.trips.rto(at_least(least)) if self.told[0] else wait

    def has_missed(self, highest, exit_point=None, went=()):
        self.pace.misses.highest, self.pace.misses.exit, self.pace.misses.went = sorted(highest), exit_point, dict(went)
        return self

    def notices(self, *newest):
        """As by acknowledgements with these highest indexes."""
        for one in newest:
            self.pace.misses.highest = sorted(self.pace.misses.highest + [one])[1:]
        return self


def lost(upto, **made):
    """The first fragment is lost, and so many SACKs came of three."""
    told = Told(**made)
    for moment, last in ((50, 2), (51, 3), (52, 4))[:upto]:
        told.sack(moment, 0, (2, last))
    return told


NONE, FULL = (False, False, False), (False, False, True)
row('of a packet the last fragment is timed', Told(room=(200,)).pace.trips.timed, (5, 0))
row('one at a time', [Told().pace.trips.timed, lost(2).pace.trips.timed, lost(2).told], [(1, 0), (1, 0), (False, False)])
row('bytes in flight, and bytes of chunks', (Told().sender.in_flight(), Told().sender.chunk_flight(), Told().expires().sender.chunk_flight()), (20, 100, 0))
row('three misses', [lost(n).marked for n in (1, 2, 3)], [[], [], [1]])
row('the timer starts anew', [lost(n).told[1] for n in (1, 2, 3)], [False, False, True])
row('what is marked is not timed', lost(3).pace.trips.timed, None)
row('misses and their exit', lost(3).misses, (4, 3, 2, 5))
row('the window behind a loss', lost(3).window, (80, 80, 0, 100, (True, False, True)))
row('what gap blocks acknowledge grows the window', lost(1).window, (100, 500, 0, 160, FULL))


def resent():
    told = lost(3)
    told.fill(60)
    return told


row('a packet takes the rescue', resent().window, (80, 80, 0, 100, (False, True, False)))
row('a packet without fragments leaves it', (lambda t: (t.fill(60, 0), t.window[4]))(lost(3)), ([], (True, False, True)))
row('without fragments nothing is timed', Told(room=(0,)).pace.trips.timed, None)
row('when it went out last', resent().went(1, 2), [5, 2])
row('what was sent before doesn\'t miss it', (lambda t: (t.marked, t.told[1], t.misses[3]))(resent().sack(53, 0, (2, 5))), ([], False, 5))


def missed_again():
    """Three of what is sent after it: 6, 7 and 8."""
    told = resent().sends(bytes(range(21, 33)))
    return [(t.marked, t.misses, t.window[1], t.window[4][0]) for t in (told.sack(moment, 0, (2, last)) for moment, last in ((70, 6), (71, 7), (72, 8)))]


row('three of what was sent later do, and nothing is cut again', missed_again(),
    [([], (6, 4, 3, 5), 80, False), ([], (7, 6, 4, 5), 80, False), ([1], (8, 7, 6, 5), 80, True)])


# ---- An expiry (6.3.3 and 7.2.3) ----

row('an expiry ends Fast Recovery, times nothing, and leaves what was noticed', (lambda t: (t.misses, t.pace.trips.timed, t.window[0]))(lost(3).expires()),
    ((4, 3, 2, None), None, 20))
row('an expiry times nothing', lost(1).expires().pace.trips.timed, None)


def all_again():
    told = lost(3).expires()
    told.fill(70, narrow=False)
    return told


def late():
    """All five go again, though all but the first were acknowledged: the SACKs of them come after the expiry."""
    told = Told().has_missed((4, 3, 2), 5).expires()
    told.fill(70, narrow=False)
    return told


row('all five go again', (late().went(1, 5, 6), all_again().went(1, 5, 6)), ([5, 5, 6], [5, 5, 6]))
row('acknowledgements of them miss none of them', late().notices(5, 5, 5).missed(1, 2, 5), [])
row('three of what is sent after them do', late().notices(6, 7, 8).missed(1, 5, 6), [1, 5])


def probing(rwnd):
    """Four are acknowledged, the last is in flight, and the peer has room for so many bytes."""
    told = lost(3)
    told.pace.window.cwnd = 77
    told.sack(60, 4, rwnd=rwnd)
    return told.expires().window[0]


row('a probe of a window without room isn\'t lost, one of a window with room is', [probing(rwnd) for rwnd in (0, 3, 4)], [77, 77, 20])
row('nor is more than a fragment a probe', (lambda t: t.sack(60, 3, rwnd=0).expires().window[0])(lost(2)), 20)
row('nothing in flight probes nothing', (lambda t: t.sack(60, 5, rwnd=0).expires().window[0])(lost(2)), 20)


# ---- Taken back (6.2.1) ----

def back(*blocks):
    """The third acknowledgement takes back what the second had."""
    return lost(2).sack(52, 0, *blocks)


row('what is taken back isn\'t missed by what came before', (lost(2).misses, back((2, 2), (4, 4)).misses, back((2, 2), (4, 4)).marked),
    ((3, 2, 0, None), (4, 3, 2, 5), [1]))
row('it counts as sent then', [back((2, 2), (4, 4)).went(2, 3, 4), back((2, 2)).has_missed((5, 5, 5), went={3: 5}).missed(1, 3)], [[2, 5, 4], [1]])


# ---- The end of Fast Recovery; the RTO ----

def done():
    return resent().sack(53, 0, (2, 5)).sack(90, 5)


row('Fast Recovery is over; Karn; a doubled RTO ends', (done().misses[3], of_trips(done().pace.trips), done().rto(0, 2000)),
    (None, (None, None), 1000))
row('a doubled RTO stays', [lost(1).rto(0, 2000), resent().sack(53, 0, (2, 5)).rto(0, 2000)], [2000, 2000])
row('a part: Fast Recovery goes on, and a packet may go', (lambda t: (t.misses[3], t.told[1], t.window))(resent().sack(60, 4)),
    (5, True, (80, 80, 0, 100, (True, False, False))))
row('in Fast Recovery the highest covered counts', resent().sack(60, 4).misses[:3], (4, 4, 3))
row('outside it what is newly covered', [Told().sack(50, 0, (3, 4)).sack(51, 1, (2, 3)).misses[:3],
                                        Told().sack(50, 0, (3, 4)).sack(51, 0, (2, 4)).misses[:3]],
    [(4, 1, 0), (4, 2, 0)])
row('in it too where CUM stood', resent().sack(53, 0, (2, 5)).sack(54, 0, (2, 5)).misses[:3], (5, 4, 3))
row('what never went out is no highest one', Told(room=(80,)).sack(50, 0, (5, 5)).misses[:3], (0, 0, 0))
row('but in Fast Recovery where CUM moved', lost(3, room=(80,)).sack(53, 1, (1, 4)).misses, (5, 4, 3, 4))


def newly(told, cumulative):
    before = Before(told.sender)
    told.sack(60, cumulative)
    return before.bytes(told.sender)


def given_up(told):
    told.sender.abandon(1)
    return told


row('newly acknowledged', [newly(resent(), 4), newly(Told(), 2), newly(given_up(Told()), 2)], [20, 40, 0])


def in_use(exit_point):
    told = resent()
    told.pace.misses.exit = exit_point
    told.pace.window.cwnd, told.pace.window.burst = 20, 500
    return told.sack(60, 4).window


row('a full window in Fast Recovery and outside', [in_use(5), in_use(None)], [(20, 80, 0, 100, (True, False, False)), (40, 80, 0, 100, NONE)])
row('a loss in Fast Recovery, and the first one went again', (lambda t: (t.marked, t.told[1], t.misses[3], t.window))(
    Told().has_missed([5, 5, 4], 9, {1: 5}).sack(53, 0, (5, 5))), ([2, 3, 4], False, 9, (80, 500, 0, 100, (True, False, True))))
row('the exit is what went out', (lambda t: (t.sender.last(), t.misses[3]))(lost(3, room=(80,))), (5, 4))
row('what is marked is no new loss',
    (lambda t: (t.sender.on_timeout(), t.sack(53, 0, (5, 5)), t.misses[3])[2])(Told().has_missed([5, 4, 3])), None)
row('what isn\'t is one', Told().has_missed([5, 4, 3]).sack(53, 0, (5, 5)).misses[3], 5)
row('the same blocks three times', (lambda t: (t.marked, t.misses))(Told().sack(50, 0, (2, 4)).sack(51, 0, (2, 4)).sack(52, 0, (2, 4))),
    ([], (4, 0, 0, None)))
row('given up: no trip', of_trips(given_up(Told()).sack(40, 5).pace.trips), (None, None))
row('a trip', (lambda t: (of_trips(t.pace.trips), t.rto(0, 2000), t.told))(Told().sack(40, 2)), ((320, 80), 120, (True, True)))
row('the window grows', Told().sack(40, 2).window, (100, 500, 0, 140, FULL))
row('a trip by a block alone: the RTO, and not the timer', (lambda t: (of_trips(t.pace.trips), t.rto(0, 2000), t.told))(
    Told(room=(200,)).sack(40, 0, (5, 5))), ((320, 80), 120, (True, False)))
row('CUM alone ends a doubled RTO', [Told().sack(40, 2).sack(45, 3).rto(least, 2000) for least in (0, 1000)], [120, 1000])
row('a trip of 60,000 at most', of_trips(Told().sack(70001, 2).pace.trips), (480000, 120000))


# ---- The packet that goes at once (7.2.4, step 3) ----

def waiting(rescue):
    told = lost(3)
    told.sender.send(0, True, 0, b'\x15\x16', None)
    told.pace.window.cwnd, told.pace.window.burst, told.pace.window.rescue = 20, 500, rescue
    return told


row('the packet that goes at once', [waiting(True).sender.in_flight(), waiting(True).fill(60), waiting(False).fill(60)], [4, [1], []])
row('it has no more than fits', (lambda t: (t.marked, t.fill(60, 59), t.fill(61, 200)))(
    Told().has_missed([5, 5, 5]).sack(53, 0, (5, 5))), ([1, 2, 3, 4], [1, 2], [3, 4]))


def narrow(told):
    """All four are marked, one waits, and the window is full."""
    told.has_missed([5, 5, 5]).sack(53, 0, (5, 5))
    told.fill(60, 20)
    told.pace.window.cwnd, told.pace.window.rescue = 20, True
    told.sender.send(0, True, 0, b'\x15', None)
    return told


row('nor than fits where the window is full', (lambda t: (t.sender.in_flight(), t.fill(60, 59), t.fill(61, 200)))(narrow(Told())), (4, [2, 3], []))
row('without control both go', (lambda t: (t.sender.send(0, True, 0, b'\x15\x16', None), t.fill(60))[1])(lost(3, controls=False)), [1, 6])
row('the three largest, in whatever order', [Told().notices(2, 3, 4).missed(1, 2), Told().notices(2, 3).missed(1), Told().notices(7, 5, 9, 6).misses[:3]],
    [[1], [], (9, 7, 6)])
row('the same by SACKs', Told(room=(500,), data=bytes(40)).sack(1, 0, (7, 7)).sack(2, 0, (5, 5), (7, 7))
    .sack(3, 0, (5, 5), (7, 7), (9, 9)).sack(4, 0, (5, 7), (9, 9)).misses[:3], (9, 7, 6))


# ---- Limits (RFC 7496, 3.1) ----

def worn(upto):
    return lost(upto, room=(200,), limit=0)


row('what is worn is a loss, and not marked', (worn(3).marked, worn(3).misses[3], worn(3).told[1], worn(3).sender.in_flight()), ([], 5, True, 8))
row('the data timer gives it up', (lambda s: (s.wear(s.above_cum()), s.on_timeout(), s.abandon_order, s.in_flight()))(worn(3).sender),
    (None, None, [1], 0))
row('and else marks none of it', (lambda s: (s.on_timeout(), s.in_flight()))(worn(3).sender), (None, 8))


if __name__ == '__main__':
    sys.exit(run())
