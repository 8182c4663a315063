"""One direction, the receiving end: what was seen, reassembly, skipping, the SACK."""

import bisect

from resets import Incoming
from wire import COUNT_END, WIDTHS, near, sack_chunk

TAKEN, DUPLICATE, AHEAD, NO_ROOM, PASSED, NO_SUCH_STREAM = 1, 2, 3, 4, 5, 6
MOVED, OUT_OF_DATE, BAD = 1, 2, 3
BLOCK_LIMIT, DUPLICATE_LIMIT = 64, 16


class Kept:
    """A piece that was recorded: its index, its number as counted on arrival, its fragment number."""

    def __init__(self, index, piece, number):
        self.index, self.piece, self.number = index, piece, number
        # With I-DATA a piece with B is fragment 0; without B the word is the fragment number,
        # and 0 there counts as fragment 0 with payload id 0 (RFC 8260 section 2.1).
        self.fragment = 0 if piece.first else piece.word
        self.key = (piece.stream, piece.unordered, number)

    def payload_id(self):
        return 0 if self.piece.interleave and not self.piece.first else self.piece.word


class Delivered:
    """A whole message, from handing over until `take` and after."""

    def __init__(self, stream, ordered, number, payload_id, data, parts):
        self.stream, self.ordered, self.number = stream, ordered, number
        self.payload_id, self.data, self.parts = payload_id, data, parts


class Receiver:
    def __init__(self, interleave, initial_tsn, streams, buffer, reserve=0, most_blocks=BLOCK_LIMIT):
        """`reserve`: bytes of the buffer that a chunk after a gap leaves free; `most_blocks`: gap blocks of a SACK."""
        self.interleave, self.initial, self.streams, self.buffer = interleave, initial_tsn, streams, buffer
        self.reserve, self.most_blocks = reserve, most_blocks
        self.width = WIDTHS.mid if interleave else WIDTHS.ssn
        self.c = 0                       # the cumulative index
        self.seen = set()                # the indexes seen above c
        self.kept = {}                   # (stream, unordered, number): pieces by rising index
        self.next = [0] * streams        # the lowest ordered number neither handed over nor skipped
        self.skip = {}                   # (stream, unordered): the largest number skipped
        self.top = [0] * streams         # the largest unordered number recorded or skipped
        self.waiting = []                # handed over and not taken
        self.handed = []                 # all that was ever handed over
        self.duplicates = []
        self.held = 0
        self.resets = Incoming(self)

    # ---- Numbers ----

    def tsn(self, index):
        return (self.initial + index - 1) % 2**WIDTHS.tsn

    def skipped(self, stream, unordered):
        return self.skip.get((stream, unordered), -1)

    def count(self, stream, unordered, wire):
        """The number with this wire value: near the next one of the stream if ordered, near the
        largest one recorded or skipped if unordered (RFC 9260 section 6.6, RFC 8260 section 2.2.3);
        counted from the last reset of the stream (RFC 6525 section 5.2.2)."""
        reference = self.top[stream] if unordered else self.next[stream]
        base = self.resets.base_of(stream, unordered)
        number = near(wire, max(reference - base, 0), self.width)
        return None if number in (None, COUNT_END) else base + number

    # ---- DATA and I-DATA (RFC 9260 sections 6.2 and 6.6) ----

    def is_duplicate(self, ahead):
        """So far ahead of the cumulative TSN it is old, or was recorded."""
        return ahead == 0 or ahead >= 2**(WIDTHS.tsn - 1) or self.c + ahead in self.seen

    def is_misnumbered(self, piece):
        """No sender may send it: an I-DATA without B says the fragment number 0, or a fragment that is kept already has a new TSN (RFC 8260 section 2.1)."""
        if not self.interleave:
            return False
        if not piece.first and piece.word == 0:
            return True
        ahead = (piece.tsn - self.tsn(self.c)) % 2**WIDTHS.tsn
        if self.is_duplicate(ahead) or ahead > WIDTHS.window or self.c + ahead >= COUNT_END or piece.stream >= self.streams:
            return False
        kept = Kept(self.c + ahead, piece, self.count(piece.stream, piece.unordered, piece.number))
        return any(k.fragment == kept.fragment for k in self.kept.get(kept.key, []))

    def on_data(self, piece):
        """The first answer that holds, and its effect."""
        ahead = (piece.tsn - self.tsn(self.c)) % 2**WIDTHS.tsn
        index = self.c + ahead
        if self.is_duplicate(ahead):
            if len(self.duplicates) < DUPLICATE_LIMIT:
                self.duplicates.append(piece.tsn)
            return DUPLICATE
        if ahead > WIDTHS.window or index >= COUNT_END:
            return AHEAD
        if piece.stream >= self.streams:
            self.record(index)
            return NO_SUCH_STREAM
        numbered = not piece.unordered or self.interleave
        number = self.count(piece.stream, piece.unordered, piece.number) if numbered else None
        kept = Kept(index, piece, number)
        if numbered and self.has_passed(kept):
            self.record(index)
            return PASSED
        if self.held + len(piece.data) + (0 if index == self.c + 1 else self.reserve) > self.buffer:
            return NO_ROOM
        self.record(index)
        if piece.unordered and number is not None:
            self.top[piece.stream] = max(self.top[piece.stream], number)
        bisect.insort(self.kept.setdefault(kept.key, []), kept, key=lambda k: k.index)
        self.held += len(piece.data)
        if piece.unordered:
            self.give_unordered(kept)
        else:
            self.give_ordered(piece.stream)
        return TAKEN

    def has_passed(self, kept):
        stream, unordered, number = kept.key
        if number is None or number <= self.skipped(stream, unordered):
            return True
        if not unordered and number < self.next[stream]:
            return True
        return self.interleave and any(
            k.fragment == kept.fragment for k in self.kept.get(kept.key, []))

    def record(self, index):
        self.seen.add(index)
        self.advance()

    def advance(self):
        while self.c + 1 in self.seen:
            self.c += 1
            self.seen.remove(self.c)

    # ---- Reassembly (RFC 9260 section 6.9, RFC 8260 section 2.2.3) ----

    def whole(self, same):
        """The fragments of a whole message among pieces of one stream, kind and number, or None."""
        if not any(k.piece.last for k in same):
            return None
        if self.interleave:
            return self.whole_by_fragments(same)
        for start, first in enumerate(same):      # the lowest index counts
            run = self.run_from(same, start) if first.piece.first else None
            if run is not None:
                return run
        return None

    @staticmethod
    def run_from(same, start):
        """The consecutive pieces from here, the first alone with B, the last alone with E."""
        run = [same[start]]
        while not run[-1].piece.last:
            start += 1
            if start == len(same) or same[start].index != run[-1].index + 1 or same[start].piece.first:
                return None
            run.append(same[start])
        return run

    @staticmethod
    def whole_by_fragments(same):
        """Fragments 0 .. k, k the smallest one with E."""
        by_fragment = {k.fragment: k for k in same}
        end = min(k.fragment for k in same if k.piece.last)
        if any(f not in by_fragment for f in range(min(end, len(same)) + 1)):
            return None
        return [by_fragment[f] for f in range(end + 1)]

    def hand_over(self, run):
        first = run[0].piece
        message = Delivered(first.stream, not first.unordered, run[0].number, run[0].payload_id(),
                            b''.join(k.piece.data for k in run), len(run))
        self.held += len(message.data)
        self.waiting.append(message)
        self.handed.append(message)

    def drop(self, key, goes=lambda kept: True):
        """Drops what is kept there, or what of it goes."""
        stay = []
        for kept in self.kept.pop(key, []):
            if goes(kept):
                self.held -= len(kept.piece.data)
            else:
                stay.append(kept)
        if stay:
            self.kept[key] = stay

    def give_ordered(self, stream):
        """Hands over in rising number what is whole; stops at the first that is neither whole
        nor skipped."""
        while True:
            number = self.next[stream]
            key = (stream, False, number)
            run = self.whole(self.kept.get(key, []))
            if run is None and number > self.skipped(stream, False):
                return
            if run is not None:
                self.hand_over(run)
            self.drop(key)
            self.next[stream] += 1
            if run is None:
                self.leap(stream)

    def leap(self, stream):
        """Past skipped numbers of which nothing is kept."""
        numbers = [key[2] for key in self.kept if key[:2] == (stream, False)]
        goal = min(numbers + [self.skipped(stream, False) + 1])
        self.next[stream] = max(self.next[stream], goal)

    def give_unordered(self, kept):
        same = self.kept[kept.key]
        if self.interleave:
            run = self.whole(same)
            if run is not None:
                self.hand_over(run)
                self.drop(kept.key)
            return
        # DATA has no number here: of the stream's unordered pieces a run by TSN, the new one in it.
        start = same.index(kept)
        while start > 0 and not same[start].piece.first and same[start - 1].index == same[start].index - 1:
            start -= 1
        run = self.run_from(same, start) if same[start].piece.first else None
        if run is not None and kept in run:
            self.hand_over(run)
            self.drop(kept.key, lambda k: k in run)

    # ---- FORWARD-TSN and I-FORWARD-TSN (RFC 3758 section 3.6, RFC 8260 section 2.3.1) ----

    def on_forward(self, forward):
        ahead = (forward.cumulative - self.tsn(self.c)) % 2**WIDTHS.tsn
        index = self.c + ahead
        if ahead == 0 or ahead >= 2**(WIDTHS.tsn - 1):
            return OUT_OF_DATE
        if ahead > WIDTHS.window or index >= COUNT_END:
            return BAD
        if any(stream >= self.streams for stream, _, _ in forward.skips):
            return BAD
        counted = [(stream, unordered, self.count(stream, unordered, wire))
                   for stream, unordered, wire in forward.skips]
        self.seen = {i for i in self.seen if i > index}
        self.c = index
        self.advance()
        for stream, unordered, number in counted:
            if number is None or (not unordered and number < self.next[stream]):
                continue
            self.skip[stream, unordered] = max(number, self.skipped(stream, unordered))
            if unordered:
                self.top[stream] = max(self.top[stream], number)
        for key in [key for key in self.kept if key[1]]:
            if self.interleave and key[2] <= self.skipped(key[0], True):
                self.drop(key)
            elif not self.interleave:
                self.drop(key, lambda kept: kept.index <= index)
        for stream in range(self.streams):
            self.give_ordered(stream)
        return MOVED

    # ---- The user, the SACK ----

    def take(self, stream):
        for place, message in enumerate(self.waiting):
            if message.stream == stream:
                self.held -= len(message.data)
                return self.waiting.pop(place)
        return None

    def runs(self):
        """The lowest maximal runs of what was seen above c, 64 unless more are asked for, as offsets from it."""
        runs = []
        for index in sorted(self.seen):
            if runs and index == runs[-1][1] + 1:
                runs[-1][1] = index
            elif len(runs) == self.most_blocks:
                break
            else:
                runs.append([index, index])
        return [(start - self.c, end - self.c) for start, end in runs]

    def room(self):
        """The window that it advertises: the reserve isn't in it."""
        return max(self.buffer - self.held - self.reserve, 0)

    def sack(self):
        """The SACK chunk that would be sent now (RFC 9260 sections 3.3.4 and 6.2)."""
        return sack_chunk(self.tsn(self.c), self.room(), self.runs(), self.duplicates)

    def sack_sent(self):
        self.duplicates = []
