"""Resets of streams (RFC 6525): what a sender knows of those of its own streams, a receiver of those of its peer's."""

from wire import (ADD_INCOMING, ADD_OUTGOING, HEADER, INCOMING_RESET, OUTGOING_RESET, TSN_RESET, WIDTHS,
                  ResetRequest, before, reconfig_chunk, reset_response)

# What a stream does that takes no message: its reset was asked for; the peer refused it.
RESETS, REFUSES = 1, 2
# A request names streams below the first number, and at most the second: so it fits each packet.
STREAM_LIMIT, RESETS_AT_ONCE = 1_024, 256
# Results of a request (section 4.4): another request is in progress (4), or this one (6).
NOTHING_TO_DO, PERFORMED, DENIED, WRONG_STREAM, ANOTHER_IN_PROGRESS, BAD_NUMBER, IN_PROGRESS = range(7)
# Which sequence number a request has: that of its first sending; one under which it is in progress, and which its timer
# replaces by the next one; one after such a number (section 5.2.7).
FIRST_NUMBER, NEXT_NUMBER, LATER_NUMBER = range(3)
# Requests that are always denied, and the least bytes that their values have (sections 4.2, 4.3, 4.5 and 4.6).
OTHER_REQUESTS = {INCOMING_RESET: 4, TSN_RESET: 4, ADD_OUTGOING: 8, ADD_INCOMING: 8}


def responses(answers):
    """The RE-CONFIG with these responses."""
    return reconfig_chunk([reset_response(*answer) for answer in answers])


class Pending:
    """The request that waits for its response: the number of its first sending, the last index assigned as it was made, its streams,
    and which number it has."""

    def __init__(self, first, last, streams):
        self.first, self.last, self.streams, self.numbering = first, last, streams, FIRST_NUMBER


class Outgoing:
    """The resets of a sender's streams (section 5.1)."""

    def __init__(self, sender):
        self.sender = sender
        self.base = {}                # (stream, ordered): the number that is 0 on the wire
        self.sending = {}             # stream: RESETS or REFUSES; the others take messages
        self.made = 0                 # how many sequence numbers of requests were used
        self.pending = None
        self.last_said = None         # the last TSN and the streams of the last request that was made

    # ---- Readers ----

    def since(self, stream, ordered, number):
        """A message's number, counted from the last reset of its stream (section 5.1.2)."""
        return number - self.base.get((stream, ordered), 0)

    def takes_messages(self, stream):
        return stream not in self.sending

    def is_resetting(self, stream):
        return self.sending.get(stream) == RESETS

    def is_still(self, stream):
        """No message of the stream waits or is assigned in part, and all its TSNs are acknowledged."""
        sender = self.sender
        above = (sender.plan[index].message for index in sender.above_cum())
        return stream not in sender.parts and all(m.stream != stream for m in [*sender.queue, *above])

    def resetting(self):
        """The streams that a request may name, now or later."""
        return [s for s in range(min(self.sender.streams, STREAM_LIMIT)) if self.is_resetting(s)]

    def ready(self):
        """The streams that the next request names: the lowest of which nothing is left to be acknowledged."""
        return [s for s in self.resetting() if self.is_still(s)][:RESETS_AT_ONCE]

    def named(self):
        """The streams of the next request. It would say the same as the last one, which the peer may have in progress, or may
        have had: it names its first stream twice, and so isn't taken for that one under another number (section 5.2.7)."""
        streams = self.ready()
        if self.last_said == (self.sender.tsn(self.sender.last()), streams):
            return (streams[:1] + streams)[:RESETS_AT_ONCE]
        return streams

    def has_number(self):
        """A sequence number is left: those that are used lie within half of their space."""
        return self.made < 2**(WIDTHS.tsn - 1) - 1

    def may_ask(self):
        """One request at a time (section 5.1.1)."""
        return self.pending is None and self.has_number() and bool(self.ready())

    def number(self):
        """The sequence number of the last request: the first one's is the initial TSN (section 4.1)."""
        return self.sender.tsn(self.made)

    def request(self):
        """What the request says that waits for its response: its number, the last TSN, its streams. None where there is none."""
        if self.pending is None:
            return None
        return self.number(), self.sender.tsn(self.pending.last), self.pending.streams

    # ---- Calls ----

    def reset(self, stream):
        """From now on the stream takes no message; what was accepted before is still sent."""
        if stream < self.sender.streams:
            self.sending[stream] = RESETS

    def ask(self):
        """A request, if one may be made (section 5.1.2); whether it was."""
        if not self.may_ask():
            return False
        self.made += 1
        self.pending = Pending(self.made, self.sender.last(), self.named())
        self.last_said = self.sender.tsn(self.pending.last), self.pending.streams
        return True

    def retry(self):
        """Its timer sends the request again: one that is in progress takes the next number, since a request with one that was
        taken may have the same response (sections 5.2.1 and 5.2.7)."""
        if self.pending is not None and self.pending.numbering == NEXT_NUMBER and self.has_number():
            self.made += 1
            self.pending.numbering = LATER_NUMBER

    def on_response(self, number, result):
        """Whether it is to the request that waits: one to another request changes nothing (section 5.2.7)."""
        if self.pending is None or number != self.number():
            return False
        if result in (NOTHING_TO_DO, PERFORMED):
            for stream in self.pending.streams:
                self.begin_anew(stream)
            self.pending = None
        elif result in (IN_PROGRESS, ANOTHER_IN_PROGRESS):
            self.pending.numbering = NEXT_NUMBER
        elif result == BAD_NUMBER and self.made > self.pending.first:
            self.go_back()
        else:
            self.sending.update((stream, REFUSES) for stream in self.pending.streams)
            self.pending = None
        return True

    def go_back(self):
        """The numbers before this one were in progress, and it isn't the next: the peer didn't count the one before it, and expects that, or an earlier
        one."""
        self.made -= 1
        self.pending.numbering = FIRST_NUMBER if self.made == self.pending.first else LATER_NUMBER

    def begin_anew(self, stream):
        """The next number of the stream's messages, of either kind, is 0 on the wire."""
        self.sending.pop(stream, None)
        for ordered in (True, False):
            self.base[stream, ordered] = self.sender.numbers.get((stream, ordered), 0)


class Incoming:
    """The resets of a receiver's streams by its peer (section 5.2)."""

    def __init__(self, receiver):
        self.receiver = receiver
        self.base = {}                # (stream, unordered): the number that is 0 on the wire
        self.taken = 0                # how many requests were taken
        self.result = BAD_NUMBER      # of the last one: the number before the first is no request's
        self.waited = None            # of the last one, if it was in progress: last TSN, streams, whether it was performed since
        self.answers = []             # (number, result): responses that wait for a packet
        self.told = {}                # stream: how many messages were handed over until its reset, while that isn't reported

    # ---- Readers ----

    def base_of(self, stream, unordered):
        return self.base.get((stream, unordered), 0)

    def last_request(self):
        """The sequence number of the last request that was taken."""
        return self.receiver.tsn(self.taken)

    def last_finished(self):
        """The sequence number of the last request that isn't in progress: that is expected again (section 4.1)."""
        return self.receiver.tsn(self.taken - (self.result == IN_PROGRESS))

    def is_next(self, number):
        return number == self.receiver.tsn(self.taken + 1)

    def is_in_turn(self, number):
        """The next one, or the last one, if that was in progress."""
        return self.is_next(number) or number == self.last_request() and self.result == IN_PROGRESS

    def result_in_turn(self, request):
        """The first that holds. It waits for all chunks up to its last TSN (section 5.2.2)."""
        if any(stream >= self.receiver.streams for stream in request.streams):
            return WRONG_STREAM
        if before(self.receiver.tsn(self.receiver.c), request.last, WIDTHS.tsn):
            return IN_PROGRESS
        return PERFORMED

    def handed_on(self, stream):
        return [m for m in self.receiver.handed if m.stream == stream]

    def next_unordered(self, stream):
        """One past the largest unordered number that was recorded or skipped, 0 where none was."""
        kept = [key[2] for key in self.receiver.kept if key[:2] == (stream, True)]
        handed = [m.number for m in self.handed_on(stream) if not m.ordered]
        return 1 + max([self.receiver.skipped(stream, True)] + [n for n in kept + handed if n is not None])

    # ---- Requests of the peer ----

    def on_parameter(self, kind, value, limit):
        """One of a RE-CONFIG; the limit is of the packet with its response. Others than requests, and those that are too
        short, do nothing."""
        if kind == OUTGOING_RESET and len(value) >= 12:
            self.on_request(ResetRequest(value), limit)
        elif kind in OTHER_REQUESTS and len(value) >= OTHER_REQUESTS[kind]:
            self.respond(int.from_bytes(value[:4], 'big'), None, DENIED, limit)

    def on_request(self, request, limit):
        """An Outgoing SSN Reset Request (section 5.2.2)."""
        result = self.result_in_turn(request)
        if result == PERFORMED and self.is_in_turn(request.number):
            is_new = not self.was_performed((request.last, request.streams))
            for stream in request.streams or range(self.receiver.streams):
                self.begin_anew(stream)
                if is_new:
                    self.told[stream] = len(self.handed_on(stream))
        self.respond(request.number, (request.last, request.streams), result, limit)

    def was_performed(self, said):
        """It was in progress under one number, performed under it, and comes under the next one, since its sender didn't know
        that yet (section 5.2.7): the user isn't told again."""
        return self.waited is not None and self.waited == (said, True)

    def begin_anew(self, stream):
        """The next number of the stream, of either kind, is 0 on the wire."""
        self.base[stream, False] = self.receiver.next[stream]
        self.base[stream, True] = self.next_unordered(stream)

    def respond(self, number, said, result, limit):
        """With this result, if the request is in its turn; the last one has the same as before (section 5.2.1)."""
        if self.is_in_turn(number):
            if result == IN_PROGRESS:
                self.waited = said, self.was_performed(said)
            else:
                self.waited = None if self.is_next(number) else (said, result == PERFORMED)
            self.taken, self.result = self.taken + self.is_next(number), result
        self.add_answer(number, self.result if number == self.last_request() else BAD_NUMBER, limit)

    def add_answer(self, number, result, limit):
        """Left out if the chunk of all that wait would exceed a packet: then the peer sends its request again."""
        answers = self.answers + [(number, result)]
        if HEADER + len(responses(answers)) <= limit:
            self.answers = answers

    def answers_said(self):
        return responses(self.answers)

    def answers_sent(self):
        self.answers = []

    # ---- The user ----

    def take_reset(self):
        """The lowest stream whose reset isn't reported, and how many of its messages that wait were handed over before; None
        where there is none."""
        if not self.told:
            return None
        stream = min(self.told)
        waiting = sum(1 for m in self.receiver.waiting if m.stream == stream)
        taken = len(self.handed_on(stream)) - waiting
        return stream, max(self.told.pop(stream) - taken, 0)
