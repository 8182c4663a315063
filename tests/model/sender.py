"""One direction, the sending end: numbering, filling, window, flow, SACK, abandoning.

Indexes count the assigned TSNs from 1; index 0 stands for nothing yet.
"""

from counts import sending
from resets import Outgoing
from wire import FLAG_B, FLAG_E, FLAG_U, WIDTHS, before, data_chunk, forward_chunk, padded

MESSAGE_LIMIT = 65_536
QUEUE_LIMIT = 1_024
OWED_LIMIT = 2**63 - 1
TICKET_LIMIT = 2**64 - 1

# Refusals of `queue` (NoMemory, 6, doesn't come here; 7 is the endpoint's).
NO_SUCH_STREAM, EMPTY, TOO_LONG, QUEUE_FULL, SPENT, RESETTING = 1, 2, 3, 4, 5, 8
# Refusals of a SACK or SHUTDOWN.
STALE, BEYOND, BAD_BLOCK = 1, 2, 3
# Answers of `abandon`.
WITHDRAWN, ABANDONED, ACKNOWLEDGED, UNKNOWN, RELIABLE = 1, 2, 3, 4, 5


class Message:
    """A message from `queue` on: its call, and what was assigned of it."""

    def __init__(self, ticket, stream, ordered, payload_id, data, until, limit=None):
        """`until`: its lifetime's end; `limit`: how often a fragment of it may be retransmitted (RFC 7496 section 3.1)."""
        self.ticket, self.stream, self.ordered = ticket, stream, ordered
        self.payload_id, self.data, self.until, self.limit = payload_id, data, until, limit
        self.number = None                        # ordered ones, and unordered ones under I-DATA
        self.indexes = []                         # one for each fragment assigned
        self.withdrawn = self.abandoned = self.end_mark = False


class Entry:
    """What one TSN was assigned to: a fragment, or the end mark of an abandoned message."""

    def __init__(self, message, fragment, last, data):
        self.message, self.fragment, self.last, self.data = message, fragment, last, data
        self.sent = self.marked = False
        self.repeats = 0                          # how often it went out again

    @property
    def is_end_mark(self):
        return self.fragment is None


class Sender:
    def __init__(self, interleave, initial_tsn, streams, fragment, peer_rwnd, partial, longest=MESSAGE_LIMIT, most_queued=None):
        """`longest`: bytes of a message; `most_queued`: of the messages without TSNs, None without a limit."""
        self.interleave, self.initial, self.streams = interleave, initial_tsn, streams
        self.fragment, self.rwnd, self.partial = fragment, peer_rwnd, partial
        self.longest, self.most_queued = longest, most_queued
        self.messages = []            # by ticket; ticket n stands at place n - 1
        self.timed = []               # those with a lifetime
        self.queue = []               # without a number, in the order of the send calls
        self.parts = {}               # stream: the message assigned in part (RFC 8260 alone)
        self.plan = [None]            # entries by index; index 0 is nothing
        self.cum = 0                  # acknowledged up to here
        self.covered = set()          # what the last SACK covers above it
        self.numbers = {}             # (stream, ordered): the next number
        self.flight = 0               # data bytes in flight, kept while a packet is filled
        self.served = None            # the stream that was served last (RFC 8260 alone)
        self.abandon_order = []       # tickets in the order of abandoning
        self.sendings = [0, 0, 0]     # of fragments: counts.FIRST, BY_TIMER, FAST
        self.again = []               # what the last fill sent again
        self.resets = Outgoing(self)

    # ---- Readers ----

    def tsn(self, index):
        return (self.initial + index - 1) % 2**WIDTHS.tsn

    def last(self):
        return len(self.plan) - 1

    def is_covered(self, index):
        return index <= self.cum or index in self.covered

    def fragments(self, message):
        """How many fragments the message has: all but the last are of one size (RFC 9260 6.9)."""
        return -(-len(message.data) // self.fragment)

    def outstanding(self):
        return self.last() - self.cum + len(self.parts)

    def whole(self, message):
        """Its last fragment is assigned."""
        return len(message.indexes) == self.fragments(message)

    def acknowledged(self, message):
        return (self.whole(message) and not message.abandoned
                and all(self.is_covered(i) for i in message.indexes))

    def drained(self):
        return not self.queue and not self.parts and self.cum == self.last()

    def point(self):
        """The advanced peer ack point (RFC 3758 section 3.5, C1)."""
        p = self.cum
        while p < self.last() and self.plan[p + 1].message.abandoned:
            p += 1
        return p

    def waits_for_cover(self, index):
        """A sent fragment that is neither covered nor abandoned."""
        entry = self.plan[index]
        return entry.sent and not self.is_covered(index) and not entry.message.abandoned

    def above_cum(self):
        return range(self.cum + 1, self.last() + 1)

    def unsettled(self):
        """The data timer is wanted (RFC 9260 section 6.3.2, RFC 3758 section 3.5)."""
        return self.point() > self.cum or any(self.waits_for_cover(i) for i in self.above_cum())

    def is_in_flight(self, index):
        return self.waits_for_cover(index) and not self.plan[index].marked

    def in_flight(self):
        return sum(len(self.plan[i].data) for i in self.above_cum() if self.is_in_flight(i))

    def chunk_size(self, index):
        """The bytes of its chunk, padded: what congestion control counts (RFC 9260 section 7.2)."""
        data = len(self.plan[index].data)
        return padded((20 if self.interleave else 16) + data) if data else 0

    def chunk_flight(self):
        return sum(self.chunk_size(i) for i in self.above_cum() if self.is_in_flight(i))

    def is_probe(self):
        """What is in flight is more than the peer has space for, and no more than a fragment has (section 6.1, rule A)."""
        return self.rwnd < self.in_flight() <= self.fragment

    def has_more(self):
        """Something waits to be sent: a marked or unsent fragment, a message without TSNs, or the rest of one."""
        return bool(self.queue or self.parts) or any(self.plan[i].marked or self.is_unsent(i) for i in self.above_cum())

    def queued_bytes(self):
        return sum(len(message.data) for message in self.queue)

    def last_sent(self):
        """The highest index that ever went out."""
        return next((i for i in range(self.last(), 0, -1) if self.plan[i].sent), 0)

    def is_worn(self, index):
        """It went out again as often as may be. Where messages may not be abandoned no limit counts."""
        entry = self.plan[index]
        return self.partial and entry.message.limit is not None and entry.repeats >= entry.message.limit

    # ---- Calls ----

    def send(self, stream, ordered, payload_id, data, until, limit=None):
        """A ticket, or the first refusal that holds as a negative number."""
        if stream >= self.streams:
            return -NO_SUCH_STREAM
        if not self.resets.takes_messages(stream):
            return -RESETTING
        if not data:
            return -EMPTY
        if len(data) > self.longest:
            return -TOO_LONG
        if len(self.queue) >= QUEUE_LIMIT or self.most_queued is not None and self.queued_bytes() + len(data) > self.most_queued:
            return -QUEUE_FULL
        message = Message(len(self.messages) + 1, stream, ordered, payload_id, data, until, limit)
        owing = self.queue + list(self.parts.values()) + [message]
        owed = sum(self.fragments(m) - len(m.indexes) + 1 for m in owing)
        if message.ticket > TICKET_LIMIT or self.last() + owed > OWED_LIMIT:
            return -SPENT
        self.messages.append(message)
        self.queue.append(message)
        if until is not None:
            self.timed.append(message)
        return message.ticket

    def abandon(self, ticket):
        """RFC 3758 section 3.5, A1 and the user's wish; RFC 8260 section 2.2.2 for the end mark."""
        if not 1 <= ticket <= len(self.messages):
            return UNKNOWN
        message = self.messages[ticket - 1]
        if not message.indexes:
            if not message.withdrawn:
                message.withdrawn = True
                self.queue.remove(message)
            return WITHDRAWN
        if message.abandoned:
            return ABANDONED
        if self.acknowledged(message):
            return ACKNOWLEDGED
        if not self.partial:
            return RELIABLE
        message.abandoned = True
        self.abandon_order.append(ticket)
        for index in message.indexes:
            self.plan[index].marked = False
        if not self.whole(message):
            message.end_mark = True
            self.plan.append(Entry(message, None, True, b''))
            del self.parts[message.stream]
        return ABANDONED

    def expire(self, now):
        """Abandons what is past its time, by rising ticket (RFC 3758 section 3.5, timed reliability)."""
        for message in self.timed:
            if message.until <= now:
                self.abandon(message.ticket)

    def wear(self, indexes):
        """Abandons the messages of these indexes that would be sent again, and may not be, by rising index (RFC 7496 section 3.1)."""
        for index in self.above_cum():
            if index in indexes and self.waits_for_cover(index) and self.is_worn(index):
                self.abandon(self.plan[index].message.ticket)

    def mark(self, indexes):
        """Of these indexes all that was sent, isn't covered and may be is to be sent again."""
        for index in self.above_cum():
            if index in indexes and self.is_in_flight(index) and not self.is_worn(index):
                self.plan[index].marked = True

    def on_timeout(self):
        """RFC 9260 section 6.3.3."""
        self.mark(self.above_cum())

    # ---- Acknowledgements (RFC 9260 section 6.2.1) ----

    def index_of(self, tsn):
        """The index of a cumulative TSN, None where it is before the one known."""
        if before(tsn, self.tsn(self.cum), WIDTHS.tsn):
            return None
        return self.cum + (tsn - self.tsn(self.cum)) % 2**WIDTHS.tsn

    def on_sack(self, sack):
        """The refusal or None. What is covered is what this SACK says: it may be less than before."""
        index = self.index_of(sack.cumulative)
        if index is None:
            return STALE
        if max([index] + [index + end for _, end in sack.blocks]) > self.last():
            return BEYOND
        floor = 0
        for start, end in sack.blocks:
            if start <= floor or start > end:     # also start 0
                return BAD_BLOCK
            floor = end
        covered = {index + i for start, end in sack.blocks for i in range(start, end + 1)}
        self.cover(index, covered)
        self.rwnd = sack.rwnd
        return None

    def taken_back(self, sack):
        """The indexes that went out and are acknowledged, and that this SACK, if it is taken, doesn't acknowledge (section 6.2.1, D iii)."""
        cum = self.index_of(sack.cumulative)
        still = {cum + i for start, end in sack.blocks for i in range(start, end + 1)}
        return [i for i in self.covered if self.plan[i].sent and i > cum and i not in still]

    def on_shutdown(self, tsn):
        """A SHUTDOWN's cumulative TSN; what lay covered beyond stays so (section 9.2)."""
        index = self.index_of(tsn)
        if index is None:
            return STALE
        if index > self.last():
            return BEYOND
        self.cover(index, {i for i in self.covered if i > index})
        return None

    def cover(self, cum, covered):
        for index in self.above_cum():
            if index <= cum or index in covered:
                self.plan[index].marked = False
        self.cum, self.covered = cum, covered

    # ---- Filling a packet (RFC 9260 sections 6.1 and 6.10) ----

    def fill(self, writer, is_missed=lambda index: False):
        """Appends fragments to the packet; the tickets newly numbered, by first TSN. `is_missed` is for the counts alone."""
        tickets = []
        self.flight, self.is_missed, self.again = self.in_flight(), is_missed, []
        # Repeats go first, lowest TSN first; a full window of the peer doesn't hold them (6.1 C).
        for index in [i for i in self.above_cum() if self.plan[i].marked]:
            if not self.put(writer, index):
                return tickets
        # Then what has a TSN and was never sent.
        for index in [i for i in self.above_cum() if self.is_unsent(i)]:
            if not self.flow_allows(self.plan[index].data) or not self.put(writer, index):
                return tickets
        while self.assign(writer, tickets):
            pass
        return tickets

    def is_unsent(self, index):
        entry = self.plan[index]
        return not (entry.sent or entry.is_end_mark or entry.message.abandoned or self.is_covered(index))

    def flow_allows(self, data):
        """Room at the peer, or nothing in flight (section 6.1, rule A)."""
        return self.flight == 0 or self.flight + len(data) <= self.rwnd

    def fragment_chunk(self, index):
        entry = self.plan[index]
        message = entry.message
        flags = (0 if message.ordered else FLAG_U)
        flags |= (FLAG_B if entry.fragment == 0 else 0) | (FLAG_E if entry.last else 0)
        if self.interleave:
            # The payload id with B, else the fragment number (RFC 8260 section 2.1).
            number = self.number_said(message) % 2**WIDTHS.mid
            word = message.payload_id if entry.fragment == 0 else entry.fragment
        else:
            # An unordered DATA has SSN 0 here (RFC 9260 section 3.3.1).
            number = self.number_said(message) % 2**WIDTHS.ssn if message.ordered else 0
            word = message.payload_id
        return data_chunk(self.interleave, flags, self.tsn(index), message.stream, number, word, entry.data)

    def number_said(self, message):
        return self.resets.since(message.stream, message.ordered, message.number)

    def put(self, writer, index):
        if not writer.put(self.fragment_chunk(index)):
            return False
        self.sendings[sending(self.plan[index], self.is_missed(index))] += 1
        if self.plan[index].sent:
            self.again.append(index)
            self.plan[index].repeats += 1
        self.plan[index].sent, self.plan[index].marked = True, False
        self.flight += len(self.plan[index].data)
        return True

    def room_of_repeats(self, room):
        """What the chunks to be sent again take of this room, those that fit before the first that doesn't."""
        taken = 0
        for size in (len(self.fragment_chunk(i)) for i in self.above_cum() if self.plan[i].marked):
            if taken + size > room:
                break
            taken += size
        return taken

    def data_of(self, message, fragment):
        return message.data[fragment * self.fragment:(fragment + 1) * self.fragment]

    def next_message(self):
        """The message of which a fragment takes the next TSN, None where there is nothing."""
        if not self.interleave:
            return self.queue[0] if self.queue else None
        # The streams take turns, one fragment each, upward from the one after the last served
        # (RFC 8260 section 2.2.2); one message at a time in a stream.
        start = 0 if self.served is None else self.served + 1
        first = {message.stream: message for message in reversed(self.queue)}
        first.update(self.parts)
        stream = min(first, key=lambda stream: (stream - start) % self.streams, default=None)
        return first.get(stream)

    def window_allows(self, message):
        """At most a window of TSNs above CUM and messages in part, after what would be assigned."""
        left = self.fragments(message) - len(message.indexes)
        if not self.interleave:
            return self.outstanding() + left <= WIDTHS.window
        in_part_now = 1 if message.indexes else 0
        in_part_then = 1 if left > 1 else 0
        return self.outstanding() + 1 + in_part_then - in_part_now <= WIDTHS.window

    def assign(self, writer, tickets):
        """Assigns for one more fragment that goes into this packet; with DATA its whole message."""
        message = self.next_message()
        if message is None or not self.window_allows(message):
            return False
        data = self.data_of(message, len(message.indexes))
        room = padded((20 if self.interleave else 16) + len(data))
        if not writer.room(room) or not self.flow_allows(data):
            return False
        if not message.indexes:
            self.give_number(message)
            tickets.append(message.ticket)
        self.assign_fragment(message)
        self.put(writer, self.last())
        if self.interleave:
            self.served = message.stream
            if self.whole(message):
                self.parts.pop(message.stream, None)
            else:
                self.parts[message.stream] = message
            return True
        first = self.last()
        while not self.whole(message):
            self.assign_fragment(message)
        for index in range(first + 1, self.last() + 1):
            if not self.flow_allows(self.plan[index].data) or not self.put(writer, index):
                return False
        return True

    def give_number(self, message):
        self.queue.remove(message)
        if message.ordered or self.interleave:
            kind = (message.stream, message.ordered)
            message.number = self.numbers.get(kind, 0)
            self.numbers[kind] = message.number + 1

    def assign_fragment(self, message):
        fragment = len(message.indexes)
        last = fragment == self.fragments(message) - 1
        self.plan.append(Entry(message, fragment, last, self.data_of(message, fragment)))
        message.indexes.append(self.last())

    # ---- FORWARD-TSN (RFC 3758 section 3.5, RFC 8260 section 2.3.1) ----

    def forward(self, limit):
        """The chunk for the largest index up to the point for which it has at most `limit` bytes; None
        where that is CUM. What it names only grows with the index."""
        end, largest = self.cum, {}
        if limit < 8:
            return None
        most = (limit - 8) // (8 if self.interleave else 4)
        for index in range(self.cum + 1, self.point() + 1):
            message = self.plan[index].message
            kind = (message.stream, not message.ordered)
            if message.number is not None:
                if kind not in largest and len(largest) == most:
                    break
                largest[kind] = max(largest.get(kind, 0), self.number_said(message))
            end = index
        if end == self.cum:
            return None
        width = WIDTHS.mid if self.interleave else WIDTHS.ssn
        skips = [(stream, unordered, number % 2**width)
                 for (stream, unordered), number in sorted(largest.items())]
        return forward_chunk(self.interleave, self.tsn(end), skips)
