"""Data channels over an endpoint (RFC 8831, RFC 8832)."""

import dcep
from dcep import Bad
from endpoint import CLOSED, LAST_MOMENT
from sender import MESSAGE_LIMIT

# Why a call is refused.
TOO_LONG = 'label and protocol are too long for a DATA_CHANNEL_OPEN'
OUT_OF_RANGE = 'more than 65,535 retransmissions or milliseconds'
NO_STREAM = 'there is no such stream, or none is free'
PEERS_STREAM = "the stream is one of the peer's"
USED = 'there is a channel on the stream'
NO_CHANNEL = 'there is no open channel on the stream'
# By the number that an endpoint refuses with.
SEND_REFUSALS = {1: 'there is no such stream', 2: 'the message is empty', 3: 'the message is too long', 4: 'too many messages wait',
                 5: 'no more messages can be numbered', 7: "the association isn't established", 8: 'the stream is being reset'}
RESET_REFUSALS = {1: 'the association is not established, or resets no streams', 2: 'there is no such stream'}
# Why the peer's message opens no channel, or is ignored.
OWN_STREAM, NO_WAY_BACK = "the stream is one of this side's", 'there is no outgoing stream of this number'
BAD_OPENING, BAD_CONTROL = 'bad DATA_CHANNEL_OPEN: %s', 'bad message of DCEP: %s'
WITHOUT_CHANNEL, OPEN_AGAIN = 'there is no channel on the stream', 'the stream has a channel'
STRAY_ACK, LATE_ACK = 'no channel waits for a DATA_CHANNEL_ACK', 'a message overtook this DATA_CHANNEL_ACK'
OTHER_PAYLOAD, CLOSING = 'another payload protocol identifier', 'the channel is being closed'
WAS_REFUSED = 'the opening of the channel was refused'


class Refused(Exception):
    """A call of the user's is refused; the reason."""


class Stream:
    """What is known of a stream since its last channel was closed."""

    def __init__(self):
        self.channel = None           # its Opening, of which nothing but order and reliability counts
        self.heard = True             # something of the peer's has come on the channel, or needn't
        self.ack_missing = False      # opened here, and the ACK hasn't come
        self.ack_owed = False         # opened by the peer, and the ACK isn't queued
        self.closing = False          # by either side: nothing more is sent (RFC 8831, 6.7)
        self.reset_owed = False       # this side's half is still to be reset
        self.refused = False          # what the peer sent opens no channel: it must reset the stream first
        self.silent = False           # being closed, though no channel on it was reported
        self.threshold = None         # of the buffered amount, in bytes
        self.was_above = False        # the amount was above it, and that it fell wasn't told
        self.old = None               # once the peer has reset its half: how many messages of before still wait
        self.again = None             # once it has done so again before this channel was reported closed: the same of that

    def is_used(self):
        return self.channel is not None or self.closing or self.refused or self.silent

    def may_send(self):
        return self.channel is not None and not self.closing

    def is_drained(self):
        return self.old == 0


class Channels:
    def __init__(self, end, is_client):
        self.end, self.is_client, self.next, self.streams = end, is_client, 0, {}

    # ---- Readers ----

    def stream(self, number):
        return self.streams.get(number) or Stream()

    def kept(self, number):
        return self.streams.setdefault(number, Stream())

    def is_own(self, number):
        """Even streams are the DTLS client's (RFC 8832, 6)."""
        return (number % 2 == 0) == self.is_client

    def outgoing(self):
        return self.end.sender.streams if self.end.sender is not None else 0

    def both_ways(self):
        return min(self.outgoing(), self.end.receiver.streams) if self.end.receiver is not None else 0

    def is_free(self, number):
        stream = self.stream(number)
        return not stream.is_used() and stream.old is None

    def waiting(self):
        """The first message that waits on each stream with one that may be told."""
        first = {}
        for message in self.end.receiver.waiting if self.end.receiver is not None else ():
            first.setdefault(message.stream, message)
        return {number: message for number, message in first.items() if not self.stream(number).is_drained()}

    def buffered(self, number):
        """The bytes of contents that wait to be sent (W3C's bufferedAmount): DCEP and the zero of an empty content don't count."""
        queue = self.end.sender.queue if self.end.sender is not None else ()
        return sum(len(m.data) for m in queue if m.stream == number and m.payload_id in (dcep.STRING, dcep.BINARY))

    # ---- The user's calls (RFC 8831, 6.4 to 6.7) ----

    def queue(self, *message):
        answer = self.end.send(*message)
        if answer < 0:
            raise Refused(SEND_REFUSALS[-answer])
        return answer

    def begin(self, number, opening):
        stream = self.kept(number)
        stream.channel = opening
        return stream

    def open(self, number, opening):
        if len(opening.label) + len(opening.protocol) + 12 > MESSAGE_LIMIT:
            raise Refused(TOO_LONG)
        if opening.value > 65_535:
            raise Refused(OUT_OF_RANGE)
        if number is None:
            number = next((n for n in range(self.both_ways()) if self.is_own(n) and self.is_free(n)), self.both_ways())
        self.need_stream(number, self.is_own(number))
        self.queue(number, True, dcep.DCEP, opening.written(), None)
        stream = self.begin(number, opening)
        stream.heard, stream.ack_missing = False, True
        return number

    def open_negotiated(self, number, opening):
        if opening.value > 65_535:
            raise Refused(OUT_OF_RANGE)
        self.need_stream(number, True)
        self.begin(number, opening)

    def need_stream(self, number, may_be_opened):
        if number >= self.both_ways():
            raise Refused(NO_STREAM)
        if not may_be_opened:
            raise Refused(PEERS_STREAM)
        if not self.is_free(number):
            raise Refused(USED)

    def send(self, now, number, text, data):
        stream = self.stream(number)
        if not stream.may_send():
            raise Refused(NO_CHANNEL)
        self.pay_ack(number, stream)
        channel = stream.channel
        until = min(now + channel.value, LAST_MOMENT) if channel.kind == dcep.TIMED else None
        limit = min(channel.value, 65_535) if channel.kind == dcep.REXMIT else None
        # In order until the peer is known to have the channel (RFC 8832, 6).
        ticket = self.queue(number, channel.ordered or not stream.heard, *dcep.sent_as(text, data), until, limit)
        self.look(number, stream)
        return ticket

    def look(self, number, stream):
        if stream.threshold is not None and self.buffered(number) > stream.threshold:
            stream.was_above = True

    def set_threshold(self, number, size):
        stream = self.stream(number)
        if not stream.may_send():
            raise Refused(NO_CHANNEL)
        stream.threshold, stream.was_above = size, False
        self.look(number, stream)

    def pay_ack(self, number, stream):
        if stream.ack_owed:
            self.queue(number, True, dcep.DCEP, bytes([dcep.ACK]), None)
            stream.ack_owed = False

    def close(self, number):
        stream = self.stream(number)
        if not stream.may_send():
            raise Refused(NO_CHANNEL)
        refusal = self.end.reset(number)
        if refusal:
            raise Refused(RESET_REFUSALS[refusal])
        stream.closing, stream.ack_owed = True, False

    # ---- Packets ----

    def handle_packet(self, now, data, draw):
        verdict = self.end.handle_packet(now, data, draw)
        found = self.end.take_reset()
        while found is not None:
            number, count = found
            self.peer_resets(self.kept(number), count)
            found = self.end.take_reset()
        self.sweep(sorted(self.streams))
        return verdict

    def peer_resets(self, stream, count):
        """A second reset is of the stream's next channel: it is kept until this one is reported closed."""
        if stream.old is None:
            stream.old = count
            self.close_if_drained(stream)
        else:
            stream.again = max(stream.old, count)

    def close_if_drained(self, stream):
        """The peer's half is closed, and so is this side's (RFC 8831, 6.7); where no channel was reported, nothing is reported of that."""
        if not stream.is_drained() or stream.closing or stream.silent:
            return
        if not stream.refused:
            stream.reset_owed, stream.ack_owed = True, False
        stream.closing, stream.silent = stream.channel is not None, stream.channel is None

    def is_over(self, number, stream):
        """Both halves are closed."""
        return stream.is_drained() and not stream.reset_owed and not self.end.sender.resets.is_resetting(number)

    def sweep(self, numbers):
        """Of these streams those are free that are closed without a channel that was reported."""
        for number in numbers:
            if self.stream(number).silent and self.is_over(number, self.stream(number)):
                self.leave(number)

    def poll_transmit(self, now):
        for number in sorted(self.streams):
            stream = self.streams[number]
            try:
                self.pay_ack(number, stream)
            except Refused:
                pass
            if stream.reset_owed:
                stream.reset_owed = self.end.reset(number) == 1
        return self.end.poll_transmit(now)

    # ---- Events ----

    def next_event(self):
        """A tuple, or None: a channel that is closed; a message; once the association is over, a channel that is left."""
        closed = [n for n, stream in self.streams.items() if stream.closing and self.is_over(n, stream)]
        if closed:
            return self.forget(min(closed))
        low = [n for n, stream in self.streams.items() if stream.was_above and self.buffered(n) <= stream.threshold]
        if low:
            self.streams[min(low)].was_above = False
            return 'low', min(low)
        waiting = self.waiting()
        if waiting:
            number = min(waiting, key=lambda n: (n < self.next, n))
            return self.hear(number, waiting[number])
        used = [n for n, stream in self.streams.items() if stream.channel is not None]
        if self.end.ended is not None and used:
            return self.forget(min(used))
        return None

    def leave(self, number):
        """The stream is free, or the peer has reset it again."""
        again = self.streams.pop(number).again
        if again is not None:
            self.peer_resets(self.kept(number), again)

    def forget(self, number):
        self.leave(number)
        return 'closed', number

    def hear(self, number, message):
        stream = self.kept(number)
        content = dcep.content(message.payload_id, message.data)
        if content is not None and stream.may_send() and not stream.heard:
            stream.heard = True       # it overtook the ACK, and waits on
            return 'opened', number
        told = self.told(number, stream, message.payload_id, message.data, content)
        self.end.take(number)
        self.next = (number + 1) % 65_536
        if stream.old is not None:
            stream.again = stream.again and stream.again - 1
            stream.old = max(stream.old - 1, 0)
            self.close_if_drained(stream)
            self.sweep([number])          # it was the last one of an opening that was refused
        return told

    def told(self, number, stream, payload_id, data, content):
        """What is told of a message that is taken."""
        if stream.refused and not stream.silent:
            return 'ignored', number, WAS_REFUSED
        if content is not None and (stream.channel is not None or stream.closing):
            return ('message', number, *content)
        if stream.closing or stream.silent:
            return 'ignored', number, CLOSING
        if payload_id == dcep.DCEP:
            return self.control(number, stream, data)
        return 'ignored', number, WITHOUT_CHANNEL if stream.channel is None else OTHER_PAYLOAD

    def control(self, number, stream, data):
        has_channel = stream.channel is not None
        try:
            said = dcep.read_control(data)
        except Bad as fault:
            return ('ignored', number, BAD_CONTROL % fault) if has_channel else self.refuse(number, stream, BAD_OPENING % fault)
        if said == 'ack':
            return self.acknowledged(number, stream)
        if has_channel:
            return 'ignored', number, OPEN_AGAIN
        if self.is_own(number):
            return self.refuse(number, stream, OWN_STREAM)
        if number >= self.outgoing():
            return self.refuse(number, stream, NO_WAY_BACK)
        self.begin(number, said).ack_owed = True
        return 'incoming', number, said

    def acknowledged(self, number, stream):
        if not stream.ack_missing:
            return 'ignored', number, STRAY_ACK
        stream.ack_missing = False
        if stream.heard:
            return 'ignored', number, LATE_ACK
        stream.heard = True
        return 'opened', number

    def refuse(self, number, stream, why):
        """This side's half is reset, as if a channel were closed (RFC 8832, 6)."""
        stream.refused = stream.reset_owed = True
        return 'refused', number, why
