"""Round trips, misses and the congestion window of one end (RFC 9260 sections 6.1, 6.3.1 and 7.2)."""

FIRST_WAIT, LONGEST_WAIT, LEAST_WAIT = 1_000, 60_000, 1_000      # RTO.Initial, RTO.Max, RTO.Min
TICK = 1                                                         # the clock's granularity G
MAX_BURST = 4
FIRST_WINDOW, GREATEST_WINDOW = 4_404, 2**32 - 1


class Before:
    """A sender as an acknowledgement finds it."""

    def __init__(self, sender):
        self.cum, self.covered, self.rwnd = sender.cum, sender.covered, sender.rwnd
        self.flight, self.waits = sender.chunk_flight(), sender.has_more()
        self.unsettled = [i for i in sender.above_cum() if sender.waits_for_cover(i)]

    def newly_covered(self, sender):
        """The indexes that went out, and that it acknowledges first or again."""
        return [i for i in range(self.cum + 1, sender.last() + 1)
                if sender.plan[i].sent and sender.is_covered(i) and i not in self.covered]

    def taken_back(self, sender):
        """The indexes that went out and were acknowledged, and that it doesn't acknowledge (section 6.2.1, D iii)."""
        return [i for i in self.covered if sender.plan[i].sent and not sender.is_covered(i)]

    def bytes(self, sender):
        """What it acknowledges of what was outstanding, in whole chunks."""
        return sum(sender.chunk_size(i) for i in self.unsettled if sender.is_covered(i))


class Waits:
    """The bounds of an RTO: RTO.Initial, RTO.Min and RTO.Max (section 16)."""

    def __init__(self, first=FIRST_WAIT, least=LEAST_WAIT, longest=LONGEST_WAIT):
        self.first, self.least, self.longest = first, least, longest


class Trips:
    """The smoothed round trip, and the one fragment that is timed (section 6.3.1)."""

    def __init__(self):
        self.eight = self.four = None      # 8 SRTT and 4 RTTVAR, whole numbers, once a trip was measured
        self.timed = None                  # (index, moment of sending)

    def measure(self, trip):
        """Rules C2 and C3: RTTVAR by the SRTT before it."""
        if self.eight is None:
            self.eight, self.four = 8 * trip, 2 * trip
            return
        srtt = self.eight // 8
        self.four += abs(srtt - trip) - self.four // 4
        self.eight += trip - srtt

    @property
    def srtt(self):
        """In milliseconds, 0 if none was measured."""
        return 0 if self.eight is None else self.eight // 8

    def rto(self, waits):
        """Rules C1 to C3, C6, C7 and G1."""
        if self.eight is None:
            return waits.first
        return min(waits.longest, max(waits.least, self.eight // 8 + max(4 * TICK, self.four)))

    def heard(self, now, before, sender):
        """What is timed was acknowledged, or is marked and so timed no more (C5, Karn). The trip, or None: an index given
        up may be acknowledged by a FORWARD (RFC 3758 section 3.5), and measures nothing."""
        if self.timed is None:
            return None
        (index, moment), trip = self.timed, None
        is_covered = sender.is_covered(index)
        if index > before.cum and is_covered and not sender.plan[index].message.abandoned:
            trip = min(now - moment, LONGEST_WAIT)
            self.measure(trip)
        if is_covered or sender.plan[index].marked:
            self.timed = None
        return trip


class Misses:
    """Which fragments have three miss indications (section 7.2.4). An acknowledgement is one for all that it doesn't cover below the highest index
    that it newly covers (HTNA), so that the third largest of these says it of all that was first sent in the order of indexes. What went out again
    is missed only by what was first sent after that."""

    def __init__(self):
        self.highest = [0, 0, 0]           # the three largest, rising; they are never lowered
        self.went = {}                     # index: the highest index that was sent when it went out last, of one that went out once it is not there
        self.exit = None                   # the exit point of Fast Recovery

    @property
    def third(self):
        return self.highest[0]

    def is_missed(self, index):
        return self.went.get(index, index) < self.third

    def heard(self, before, sender):
        """An acknowledgement: Fast Recovery may be over, and what it takes back counts as sent now."""
        if self.exit is not None and sender.cum >= self.exit:
            self.exit = None
        self.went.update(dict.fromkeys(before.taken_back(sender), sender.last_sent()))
        newest = max(before.newly_covered(sender), default=0)
        if self.exit is not None and sender.cum > before.cum:
            newest = max([newest, sender.cum, *sender.covered])
        self.highest = sorted(self.highest + [newest])[1:]

    def sent(self, last, again):
        """These went out again, when `last` was the highest index that was sent."""
        self.went.update(dict.fromkeys(again, last))


class News:
    """What an acknowledgement says to congestion control, in bytes of whole chunks: `flight` before it, `left` after it, `count` newly acknowledged;
    whether Fast Recovery goes on (`recovers`), some fragment in flight is missed (`lost`), CUM moved, and something waited to be sent before it."""

    def __init__(self, flight=0, left=0, count=0, recovers=False, lost=False, moved=False, waits=False, now=0, trip=0):
        self.flight, self.left, self.count = flight, left, count
        self.recovers, self.lost, self.moved, self.waits = recovers, lost, moved, waits
        self.now, self.trip = now, trip


class Window:
    """The congestion window, in bytes of whole chunks (sections 7.2.1 to 7.2.4), and the limit of bursts (6.1, rule D)."""

    def __init__(self, size, rwnd, growth=1, cubic=None):
        """`size`: PMDCS, what a packet's common header leaves; `growth`: L."""
        self.size, self.ssthresh, self.acked, self.growth, self.cubic = size, rwnd, 0, growth, cubic
        self.cwnd = self.burst = min(4 * size, max(2 * size, FIRST_WINDOW))
        self.rescue = False                # a packet of retransmissions may go whatever the window is (7.2.4, step 3)
        self.was_sent = False              # a packet with fragments went out since something was newly acknowledged
        self.is_full = False               # the last such packet filled the window

    def is_open(self, flight):
        """Rules B and D: the packet that goes past the window is the last."""
        return flight < min(self.cwnd, self.burst)

    def widen(self, more):
        self.cwnd = min(self.cwnd + more, GREATEST_WINDOW)

    def is_in_use(self, news):
        """It was full before the acknowledgement, or as the last packet went, while something waits: then others that arrived with this one
        have lessened what is in flight."""
        return news.flight >= self.cwnd or self.is_full and news.waits

    def grow(self, news):
        """Slow start and congestion avoidance; only a window that was in use grows (7.2.1, 7.2.2)."""
        if self.cwnd <= self.ssthresh:
            if self.is_in_use(news):
                self.widen(min(news.count, self.growth * self.size))
        elif self.cubic is not None:
            self.avoid_by_cubic(news)
        else:
            self.avoid(news)

    def avoid(self, news):
        self.acked += news.count
        if self.acked < self.cwnd or not self.is_in_use(news):
            self.acked = min(self.acked, self.cwnd)
        else:
            self.acked = min(self.acked - self.cwnd, GREATEST_WINDOW)
            self.widen(self.size)

    def avoid_by_cubic(self, news):
        if self.is_in_use(news):
            self.cubic.acknowledged(news.now, self.size, self.cwnd, news.count)
            self.widen(self.cubic.more(news.now, self.size, self.cwnd, news.count, news.trip))

    def lessen(self):
        """After a loss (7.2.3)."""
        less = self.cwnd // 2
        if self.cubic is not None:
            less = self.cubic.reduced(self.cwnd)
            self.cubic.lost(self.cwnd)
        self.ssthresh, self.acked = max(less, 4 * self.size), 0

    def recover(self):
        """Fast Recovery begins (7.2.4, steps 2 and 3)."""
        self.lessen()
        self.cwnd, self.rescue = self.ssthresh, True

    def expired(self):
        """One packet, and no other one until an acknowledgement comes (7.2.3; 6.3.3, E3)."""
        self.lessen()
        self.cwnd, self.burst, self.rescue, self.is_full = self.size, 1, False, False
        if self.cubic is not None:
            self.cubic.forget()

    def allowed(self, news, unused):
        """What may go beyond what is in flight: Max.Burst packets; while something waits, and there is no loss, also what is acknowledged, and
        what earlier acknowledgements allowed and no packet took; a window at most."""
        packets = MAX_BURST * self.size
        if not news.waits or news.recovers or news.lost:
            return packets
        return min(packets + news.count + unused, max(self.cwnd, packets))

    def heard(self, news):
        """An acknowledgement. Fast Recovery may begin by it."""
        unused = 0 if self.was_sent else max(self.burst - news.flight, 0)
        if news.count and not news.recovers:
            self.grow(news)
        if news.lost and not news.recovers:
            self.recover()
        if news.lost or news.recovers and news.moved:         # 7.2.4, step 3; RFC 6582 section 3.2, step 3
            self.rescue = True
        if news.count:
            self.burst = min(news.left + self.allowed(news, unused), GREATEST_WINDOW)
            self.was_sent = False
        if not news.left:
            self.acked = 0

    def sent(self, flight):
        """A packet with fragments went out, and so much is in flight now."""
        self.rescue, self.was_sent, self.is_full = False, True, flight >= self.cwnd


class Pace:
    """What an end with fast retransmit has besides its sender: the RTO, marks and the room for fragments go by it."""

    def __init__(self, controls, size, rwnd, growth=1, cubic=None):
        self.trips, self.misses = Trips(), Misses()
        self.window = Window(size, rwnd, growth, cubic) if controls else None

    def heard(self, now, before, sender):
        """The sender has taken an acknowledgement: what it missed is marked. Whether the RTO is computed anew (6.3.1; a doubled
        one ends where CUM moved), and whether a running timer starts anew (6.3.2, R3; 7.2.4, step 4)."""
        misses, moved = self.misses, sender.cum > before.cum
        misses.heard(before, sender)
        missed = {i for i in sender.above_cum() if misses.is_missed(i)}
        lost = min((i for i in missed if sender.is_in_flight(i)), default=None)
        recovers, count = misses.exit is not None, before.bytes(sender)
        sender.mark(missed)
        trip = self.trips.heard(now, before, sender)
        if self.window is not None:
            self.window.heard(News(before.flight, sender.chunk_flight(), count, recovers, lost is not None, moved, before.waits, now, self.trips.srtt))
        if lost is not None and not recovers:
            misses.exit = sender.last_sent()
        return moved or trip is not None, moved or lost == sender.cum + 1

    def expired(self, sender):
        """The data timer expires, before anything is marked: nothing is timed, Fast Recovery is over, and the window is one packet (6.3.3, 7.2.3),
        unless what is in flight probed a window without room for it (6.1, rule A)."""
        self.trips.timed, self.misses.exit = None, None
        if self.window is not None and not sender.is_probe():
            self.window.expired()

    def room(self, room, sender):
        """How much of this room of a packet is for fragments."""
        if self.window is None or self.window.is_open(sender.chunk_flight()):
            return room
        return sender.room_of_repeats(room) if self.window.rescue else 0

    def sent(self, now, before, sender, again, has_fragments):
        """A packet was filled; `before` it this was the highest index sent, and these went `again`."""
        last = sender.last_sent()
        if self.trips.timed is None and last > before:
            self.trips.timed = (last, now)
        self.misses.sent(before, again)
        if self.window is not None and has_fragments:
            self.window.sent(sender.chunk_flight())
