"""One end of an association: states, tags, timers, packets in and out."""

import struct

import wire
from beats import Beats
from config import Config
from counts import Counts
from pace import LONGEST_WAIT, Before, Pace, Waits
from receiver import BAD, NO_SUCH_STREAM, TAKEN as PIECE_TAKEN, Receiver
from sender import STALE as STALE_SACK, UNKNOWN, Sender
from wire import Chunk, Cookie, Fault, Forward, Opening, Packet, Piece, Sack, chunk, item, padded

CLOSED, LISTEN, COOKIE_WAIT, COOKIE_ECHOED = 'Closed', 'Listen', 'CookieWait', 'CookieEchoed'
ESTABLISHED, PENDING, SENT = 'Established', 'ShutdownPending', 'ShutdownSent'
RECEIVED, ACK_SENT = 'ShutdownReceived', 'ShutdownAckSent'
SHUTDOWN_STATES = (PENDING, SENT, RECEIVED, ACK_SENT)

COMPLETED, ABORTED, ABORTED_HERE = 'Completed', 'Aborted', 'AbortedHere'
TIMED_OUT, STALE_COOKIE = 'TimedOut', 'StaleCookie'

# Why a packet was dropped.
FAULT, WRONG_PORTS, WRONG_TAG, WRONG_STATE, BAD_COOKIE = 1, 2, 3, 4, 5
TAKEN = ('taken',)

LAST_MOMENT = 2**64 - 1
SACK_DELAY = 200
GUARD_WAITS = 5                          # T5-shutdown-guard: so many times RTO.Max (section 9.2)


class Writer:
    """A packet that is being filled, up to the limit (RFC 9260 section 6.10)."""

    def __init__(self, limit):
        self.limit, self.chunks, self.size = limit, [], wire.HEADER

    def room(self, size):
        return self.size + size <= self.limit

    def narrow(self, room):
        """What is put from now on has this room."""
        self.limit = self.size + room

    def put(self, written):
        if not self.room(len(written)):
            return False
        self.chunks.append(written)
        self.size += len(written)
        return True


class Timer:
    """A wait that doubles at each expiry, up to RTO.Max (RFC 9260 sections 6.3.2 and 6.3.3)."""

    def __init__(self, repeats, waits):
        self.repeats, self.first, self.longest = repeats, waits.first, waits.longest
        self.count, self.wait, self.expiry = 0, waits.first, None

    def start(self, now):
        if self.expiry is None:
            self.restart(now)

    def restart(self, now):
        self.expiry = min(now + self.wait, LAST_MOMENT)

    def is_over(self, now):
        return self.expiry is not None and self.expiry <= now

    def stop(self):
        self.expiry = None

    def renew(self, now):
        """No expiry counts any more, and the wait begins anew where it runs."""
        self.count, self.wait = 0, self.first
        self.begin_anew(now)

    def begin_anew(self, now):
        """With the same wait, where it runs."""
        if self.expiry is not None:
            self.restart(now)

    def expire(self):
        """Expires once; false where it was repeated as often as may be."""
        self.expiry = None
        return self.count_one()

    def count_one(self):
        """One more is unanswered; false where that is one too many."""
        if self.count >= self.repeats:
            return False
        self.count += 1
        self.wait = min(2 * self.wait, self.longest)
        return True


# The states in which HEARTBEATs are sent, and those in which closing as a whole is timed.
BEATING, GUARDED = (ESTABLISHED, PENDING, RECEIVED), (SENT, ACK_SENT)
# The packet that a state sends again by its own timer, and that timer (sections 5.1 and 9.2).
STATE_PACKETS = {COOKIE_WAIT: 'init', COOKIE_ECHOED: 'cookie echo', SENT: 'shutdown', ACK_SENT: 'shutdown ack'}


class PacketEnds(Exception):
    """The rest of the packet isn't acted on; the verdict."""


class Endpoint:
    def __init__(self, config, key=None):
        """A listener where there is a key, else a caller."""
        self.config, self.key = config, key
        self.state = LISTEN if key is not None else CLOSED
        self.ended = None
        self.fresh = True                    # no association yet
        self.now = 0
        self.own_tag = self.own_tsn = self.peer_tag = None
        self.sender = self.receiver = None
        self.may_reset = False               # both ends may reset their streams
        self.zero_checksum = False           # packets may have the checksum 0
        self.due = set()
        self.sack_wait = None                # when a SACK that may wait is due
        self.pace, self.counts = None, Counts()
        self.cookie = self.heartbeat = None
        self.causes = []                     # of the ERROR that is due
        self.beats = Beats(config.heartbeat)
        self.offered = config.buffer         # the window that was advertised last
        self.waits = Waits(config.first_wait, config.rto_min, config.longest_wait)
        opening, other = config.opening_repeats, config.repeats
        self.timers = {name: Timer(repeats, self.waits) for name, repeats in (
            ('init', opening), ('cookie echo', opening), ('data', other), ('shutdown', other), ('shutdown ack', other), ('request', other),
            ('heartbeat', other), ('guard', 0))}

    @classmethod
    def opened(cls, config, own, peer):
        """Established without packets: its peer is taken to have its own configuration."""
        end = cls(config)
        end.own_tag, end.own_tsn = own
        end.associate(peer[0], peer[1], config.buffer, config.streams_alone, config.streams_alone,
                      config.partial, config.interleave, config.reset, config.zero_checksum)
        end.state = ESTABLISHED
        end.is_idle()
        return end

    def associate(self, peer_tag, peer_tsn, peer_rwnd, outbound, inbound, partial, interleave, may_reset, zero_checksum):
        config = self.config
        self.fresh, self.peer_tag = False, peer_tag
        self.partial, self.interleave, self.may_reset, self.zero_checksum = partial, interleave, may_reset, zero_checksum
        self.sender = Sender(interleave, self.own_tsn, outbound, config.fragment, peer_rwnd, partial, config.longest_message, config.queue_bytes)
        self.receiver = Receiver(interleave, peer_tsn, inbound, config.buffer, config.reserve, config.most_blocks)
        if config.fast_retransmit:
            self.pace = Pace(config.congestion_control, self.body_limit(), peer_rwnd, config.growth, config.for_cubic)

    # ---- States ----

    def enter(self, state):
        """Leaving a state ends its timer and its packet."""
        packet = STATE_PACKETS.get(self.state)
        if packet is not None and state != self.state:
            self.timers[packet].stop()
            self.due.discard(packet)
        for name, at_home in (('request', (ESTABLISHED,)), ('heartbeat', BEATING), ('guard', GUARDED)):
            if state not in at_home:         # a request goes out in Established alone (RFC 6525 section 5.1)
                self.timers[name].stop()
                self.due.discard(name)
        self.state = state
        if state in STATE_PACKETS:
            self.due.add(STATE_PACKETS[state])

    def close(self, why):
        """Closed after an association, for good: no timer, no packet."""
        self.state, self.ended = CLOSED, why
        self.due, self.causes, self.sack_wait = set(), [], None
        for timer in self.timers.values():
            timer.stop()

    def settle(self):
        """What follows at once from the sender's state after a chunk or call (section 9.2)."""
        if self.sender is None or self.state == CLOSED:
            return
        if self.sender.point() == self.sender.cum:
            self.due.discard('forward')
        if not self.sender.unsettled():
            self.timers['data'].stop()
        if self.sender.drained():
            if self.state == PENDING:
                self.enter(SENT)
            elif self.state == RECEIVED:
                self.enter(ACK_SENT)

    # ---- Packets out ----

    def packet(self, tag, chunks):
        """With the checksum 0 if that was agreed on, but for an INIT and a COOKIE ECHO (RFC 9653 section 5)."""
        zero = self.zero_checksum and self.state in (ESTABLISHED, *SHUTDOWN_STATES)
        return self.counts.goes(wire.packet(self.config.own_port, self.config.peer_port, tag, chunks, zero))

    def body_limit(self):
        return self.config.limit - wire.HEADER

    def report(self, cause):
        """One more cause of the ERROR that is due, where it fits (section 3.3.10)."""
        if self.error_fits(self.causes + [cause]):
            self.causes.append(cause)

    def error_fits(self, causes):
        return padded(4 + len(wire.item_list(causes))) <= self.body_limit()

    def chunk_for(self, name):
        """The chunk of this name that is due."""
        if name == 'cookie echo':
            return chunk(wire.COOKIE_ECHO, self.cookie)
        if name == 'cookie ack':
            return chunk(wire.COOKIE_ACK)
        if name == 'heartbeat ack':
            return chunk(wire.HEARTBEAT_ACK, self.heartbeat)
        if name == 'heartbeat':
            return self.beats.chunk(self.own_tsn)
        if name == 'error':
            return chunk(wire.ERROR, wire.item_list(self.causes))
        if name == 'sack':
            return self.receiver.sack()
        if name == 'forward':
            return self.sender.forward(self.body_limit())
        if name == 'answers':
            return self.receiver.resets.answers_said()
        if name == 'request':
            number, last, streams = self.sender.resets.request()
            return wire.reconfig_chunk([wire.reset_request(number, self.receiver.resets.last_finished(), last, streams)])
        if name == 'shutdown':
            return chunk(wire.SHUTDOWN, struct.pack('>I', self.receiver.tsn(self.receiver.c)))
        return chunk(wire.SHUTDOWN_ACK)

    def is_due(self, name):
        if name == 'error':
            return bool(self.causes)
        if name == 'answers':
            return self.receiver is not None and bool(self.receiver.resets.answers)
        return name in self.due

    def built(self, name):
        """A chunk of this name stands in a packet that goes out."""
        self.due.discard(name)
        if name == 'error':
            self.causes = []
        elif name == 'sack':
            self.offered = self.receiver.room()
            self.receiver.sack_sent()
            self.counts.sacks_out += 1
            self.sack_wait = None
        elif name == 'forward':
            self.timers['data'].start(self.now)
        elif name == 'answers':
            self.receiver.resets.answers_sent()
        elif name == 'heartbeat':
            self.beats.sent = self.now
        elif name in self.timers:
            self.timers[name].start(self.now)
        if name == 'shutdown' and self.config.guard:
            self.timers['guard'].wait = GUARD_WAITS * self.waits.longest
            self.timers['guard'].start(self.now)

    def poll_transmit(self, now):
        """One packet, or None, and the tickets newly numbered."""
        self.take_moment(now)
        if self.state in (CLOSED, LISTEN):
            return None, []
        if 'init' in self.due:
            self.built('init')
            return self.packet(0, [self.opening_chunk(wire.INIT, [])]), []
        self.ask()
        writer, tickets = Writer(self.config.limit), []
        if 'cookie echo' in self.due:
            self.put_due(writer, ('cookie echo', 'error'))
        elif self.put_due(writer, ('cookie ack', 'heartbeat ack', 'heartbeat', 'error', 'sack', 'forward', 'answers', 'request',
                                   'shutdown', 'shutdown ack')) and self.sender is not None:
            tickets = self.fill(writer)
        if not writer.chunks:
            return None, []
        self.settle()
        return self.packet(self.peer_tag, writer.chunks), tickets

    def fill(self, writer):
        """Fragments, as the pace allows them; the tickets newly numbered."""
        before, last = len(writer.chunks), self.sender.last_sent()
        if self.pace is not None:
            writer.narrow(self.pace.room(writer.limit - writer.size, self.sender))
        tickets = self.sender.fill(writer, *([] if self.pace is None else [self.pace.misses.is_missed]))
        has_fragments = len(writer.chunks) > before
        if has_fragments:
            self.timers['data'].start(self.now)
            self.is_idle()
        if self.pace is not None:
            self.pace.sent(self.now, last, self.sender, self.sender.again, has_fragments)
        return tickets

    def ask(self):
        """A request to reset streams is made as soon as it may be (RFC 6525 section 5.1.2)."""
        if self.may_reset and self.state == ESTABLISHED and self.sender.resets.ask():
            self.due.add('request')
            self.timers['request'].wait = self.request_wait()

    def request_wait(self):
        """The RTO, where round trips are measured (RFC 6525 section 5.1.1)."""
        return self.waits.first if self.pace is None else self.pace.trips.rto(self.waits)

    def put_due(self, writer, names):
        """False where one didn't fit: it stays due and ends the packet."""
        for name in names:
            if self.is_due(name):
                if not writer.put(self.chunk_for(name)):
                    return False
                self.built(name)
        return True

    def opening_chunk(self, kind, before, draw=None, after=(), asked=None):
        """INIT, or the INIT ACK to the one that asked, with this end's values (sections 3.3.2 and 3.3.3)."""
        tag, tsn = draw or (self.own_tag, self.own_tsn)
        config = self.config
        parameters = list(before) + config.options(asked)
        for report in after:
            more = parameters + [report]
            if padded(20 + len(wire.item_list(more))) <= self.body_limit():
                parameters = more
        return chunk(kind, wire.init_value(tag, config.buffer, config.outbound, config.inbound, tsn, parameters))

    # ---- Moments ----

    def take_moment(self, now):
        self.now = max(self.now, now)

    def on_moment(self, now):
        self.take_moment(now)
        if self.state == CLOSED:
            return
        if self.sender is not None:
            self.abandoning(self.give_up)
        self.settle()
        for name, timer in self.timers.items():
            if timer.is_over(self.now):
                if not (self.beat_over() if name == 'heartbeat' else timer.expire()):
                    self.close(TIMED_OUT)
                    return
                self.expired(name)
        if self.sack_wait is not None and self.sack_wait <= self.now:
            self.sack_wait = None
            self.due.add('sack')
        self.settle()

    def give_up(self):
        """What is past its time and, where the data timer expires, what was sent again as often as may be."""
        self.sender.expire(self.now)
        if self.timers['data'].is_over(self.now):
            self.sender.wear(self.sender.above_cum())

    def expired(self, name):
        if name == 'request':
            self.sender.resets.retry()
        if name == 'heartbeat':
            self.beat()
        elif name != 'data':
            self.due.add(name)
        else:
            if self.pace is not None:
                self.pace.expired(self.sender)
            self.sender.on_timeout()
            self.want_forward()

    # -- HEARTBEATs (sections 8.1 and 8.3)

    def is_idle(self):
        """From now on nothing is sent: their timer starts anew, if it sends them."""
        if self.beats.interval is not None:
            timer = self.timers['heartbeat']
            timer.wait = self.beats.wait(self.timers['data'].wait, self.own_tag)
            timer.restart(self.now)

    def is_quiet(self):
        """Nothing is to be acknowledged."""
        return not self.sender.unsettled()

    def beat_over(self):
        """The time of the next one is there: one that wasn't answered counts with the expiries of the data timer, and doubles its wait, if nothing
        else is to be acknowledged. False where that is one too many."""
        self.timers['heartbeat'].stop()
        return not (self.beats.sent is not None and self.is_quiet()) or self.timers['data'].count_one()

    def beat(self):
        self.beats.next(self.is_quiet())
        self.due.discard('heartbeat')
        if self.is_quiet():
            self.due.add('heartbeat')
        self.is_idle()

    def heartbeat_acked(self, found):
        """An answer to the last one: the peer is alive, and the RTO is the one computed. The count is 0 if nothing is to be acknowledged."""
        if self.sender is None or self.state not in (ESTABLISHED, *SHUTDOWN_STATES):
            return
        trip = self.beats.trip(self.now, self.own_tsn, found.value)
        if trip is None:
            return
        self.beats.sent = None
        if self.pace is not None:
            self.pace.trips.measure(min(trip, LONGEST_WAIT))
        self.timers['data'].wait = self.request_wait()
        if self.is_quiet():
            self.timers['data'].count = 0

    def want_forward(self):
        if self.sender.point() > self.sender.cum:
            self.due.add('forward')

    def abandoning(self, act):
        """A FORWARD is due where the point moved (RFC 3758 section 3.5). What one act abandons is reported by rising ticket."""
        point, order = self.sender.point(), len(self.sender.abandon_order)
        answer = act()
        self.sender.abandon_order[order:] = sorted(self.sender.abandon_order[order:])
        if self.sender.point() != point:
            self.want_forward()
        return answer

    def next_moment(self):
        moments = [timer.expiry for timer in self.timers.values()] + [self.sack_wait]
        return min((moment for moment in moments if moment is not None), default=None)

    # ---- The user's calls (RFC 9260 section 11.1) ----

    def connect(self, now, draw):
        self.take_moment(now)
        if self.state != CLOSED or not self.fresh:
            return False
        self.fresh = False
        self.own_tag, self.own_tsn = draw
        self.enter(COOKIE_WAIT)
        return True

    def send(self, stream, ordered, payload_id, data, until, limit=None):
        if self.state != ESTABLISHED:
            return -7
        return self.sender.send(stream, ordered, payload_id, data, until, limit)

    def abandon(self, ticket):
        if self.sender is None:
            return UNKNOWN
        fate = self.abandoning(lambda: self.sender.abandon(ticket))
        if self.state == CLOSED:
            self.due = set()
        self.settle()
        return fate

    def take(self, stream):
        """With window updates a SACK is due where a quarter of the buffer came free since the last one, and the peer may still send (section 6.2)."""
        if self.receiver is None:
            return None
        message, takes = self.receiver.take(stream), self.state in (ESTABLISHED, PENDING, SENT)
        if self.config.updates and takes and self.receiver.room() >= self.offered + -(-self.config.buffer // 4):
            self.due.add('sack')
        return message

    def reset(self, stream):
        """0, or the refusal as a number (RFC 6525 section 5.1)."""
        if not self.may_reset or self.state != ESTABLISHED:
            return 1
        if stream >= self.sender.streams:
            return 2
        self.sender.resets.reset(stream)
        return 0

    def take_reset(self):
        """(stream, count) of the lowest stream that the peer has reset and that isn't reported yet, or None."""
        return self.receiver.resets.take_reset() if self.receiver is not None else None

    def shutdown(self):
        if self.state != ESTABLISHED and self.state not in SHUTDOWN_STATES:
            return False
        if self.state == ESTABLISHED:
            self.enter(PENDING)
            self.settle()
        return True

    def abort(self, reason):
        """The ABORT packet, or the refusal as a number (section 9.1)."""
        if self.state in (CLOSED, LISTEN, COOKIE_WAIT):
            return 1
        if wire.padded(8 + len(reason)) > self.body_limit():
            return 2
        self.close(ABORTED_HERE)
        return self.packet(self.peer_tag, [chunk(wire.ABORT, item(wire.USER_ABORT, reason))])

    # ---- Packets in ----

    def handle_packet(self, now, data, draw):
        """('taken',), ('dropped', reason) or ('answer', bytes)."""
        self.take_moment(now)
        zero = self.zero_checksum and self.state != CLOSED
        return self.counts.comes(data, self.heard(data, draw, zero), zero)

    def heard(self, data, draw, zero):
        """What becomes of it; `zero`: its checksum may be 0."""
        try:
            packet = Packet(data, zero)
        except Fault:
            return 'dropped', FAULT
        if (packet.destination, packet.source) != (self.config.own_port, self.config.peer_port):
            return 'dropped', WRONG_PORTS
        if not self.tag_passes(packet):
            return 'dropped', WRONG_TAG
        try:
            if self.state in (CLOSED, LISTEN):
                self.out_of_the_blue(packet, draw)
                return self.act(packet.chunks[1:], True)       # behind a cookie that opened
            return self.act(packet.chunks, False)
        except PacketEnds as end:
            return end.args

    def tag_passes(self, packet):
        """Sections 8.5 and 8.5.1."""
        first = packet.chunks[0]
        if first.kind == wire.INIT:
            return packet.tag == 0
        if self.state in (CLOSED, LISTEN):
            return True
        if first.kind in (wire.ABORT, wire.SHUTDOWN_COMPLETE) and first.t:
            return packet.tag == self.peer_tag
        return packet.tag == self.own_tag

    # -- In Listen and Closed (sections 5.1 and 8.4): the first chunk decides.

    def out_of_the_blue(self, packet, draw):
        """Ends the packet, but where a cookie opens."""
        first = packet.chunks[0]
        if any(found.kind == wire.ABORT for found in packet.chunks):
            raise PacketEnds('dropped', WRONG_STATE)
        if first.kind == wire.INIT:
            self.stray_init(Opening(first), draw)
        if first.kind == wire.COOKIE_ECHO and self.state == LISTEN:
            return self.listen_cookie(packet, first.value)
        if first.kind == wire.SHUTDOWN_ACK:
            self.answer(packet.tag, chunk(wire.SHUTDOWN_COMPLETE, flags=wire.FLAG_T))
        dropped = (wire.SHUTDOWN_COMPLETE, wire.COOKIE_ACK, wire.INIT_ACK, wire.ERROR)
        if first.kind in dropped or first.kind not in wire.KNOWN:
            raise PacketEnds('dropped', WRONG_STATE)
        self.answer(packet.tag, chunk(wire.ABORT, flags=wire.FLAG_T))

    def answer(self, tag, written):
        raise PacketEnds('answer', self.packet(tag, [written]))

    def stray_init(self, opening, draw):
        if opening.tag == 0:
            raise PacketEnds('dropped', WRONG_TAG)
        if self.state == CLOSED:
            self.answer(opening.tag, chunk(wire.ABORT))
        if opening.no_streams:
            self.answer(opening.tag, chunk(wire.ABORT, item(wire.INVALID_PARAMETER)))
        config = self.config
        partial, interleave, may_reset, zero = config.agreed(opening)
        cookie = Cookie(self.now, config.own_port, config.peer_port, draw[0], opening.tag, draw[1],
                        opening.tsn, opening.rwnd, min(config.outbound, opening.inbound),
                        min(opening.outbound, config.inbound),
                        wire.PARTIAL * partial + wire.INTERLEAVE * interleave + wire.RESET * may_reset + wire.ZERO * zero)
        reports = [item(wire.UNRECOGNIZED, whole) for whole in opening.reports]
        self.answer(opening.tag, self.opening_chunk(
            wire.INIT_ACK, [item(wire.STATE_COOKIE, cookie.seal(self.key))], draw, reports, opening))

    def open_cookie(self, value, tag):
        """An end that isn't set up for stream reset, or for zero checksums, made no cookie that says so."""
        ports = (self.config.own_port, self.config.peer_port)
        cookie, fault, stale = wire.open_cookie(self.key, value, self.now, ports, tag)
        may_say = wire.PARTIAL + wire.INTERLEAVE + wire.RESET * self.config.reset + wire.ZERO * self.config.zero_checksum
        if cookie is not None and cookie.options & ~may_say:
            return None, wire.FORM, 0
        return cookie, fault, stale

    def listen_cookie(self, packet, value):
        cookie, fault, stale = self.open_cookie(value, packet.tag)
        if fault == wire.STALE:
            self.answer(cookie.peer_tag, chunk(wire.ERROR, item(wire.STALE_COOKIE, struct.pack('>I', stale))))
        if fault:
            raise PacketEnds('dropped', BAD_COOKIE)
        self.own_tag, self.own_tsn = cookie.own_tag, cookie.own_tsn
        self.associate(cookie.peer_tag, cookie.peer_tsn, cookie.peer_rwnd, cookie.outbound, cookie.inbound,
                       *(bool(cookie.options & option) for option in (wire.PARTIAL, wire.INTERLEAVE, wire.RESET, wire.ZERO)))
        self.measured(min(max(self.now - cookie.made, 0), LONGEST_WAIT), self.waits.first)
        self.state = ESTABLISHED
        self.is_idle()
        self.due.add('cookie ack')

    # -- In an association: chunk by chunk, each in the state that it finds.

    def act(self, chunks, acted):
        self.data_acted = self.forward_acted = self.at_once = False
        third = self.third()
        try:
            for found in chunks:
                row = self.row(found) if found.kind in wire.KNOWN else self.other_row(found)
                if row is not None:
                    acted = True
                    if row(found) == 'stop':
                        break
                    self.settle()
                    if self.state == CLOSED:
                        break
        finally:
            self.wear_missed(third)
            self.after_packet()
        return TAKEN if acted else ('dropped', WRONG_STATE)

    def third(self):
        """What was sent last before this index, and isn't acknowledged, has its third miss indication."""
        return 0 if self.pace is None else self.pace.misses.third

    def wear_missed(self, third):
        """The end of a packet that raised it: what is missed, and may not be sent again, is abandoned (RFC 7496 section 3.1)."""
        if self.third() > third and self.state != CLOSED:
            missed = {i for i in self.sender.above_cum() if self.pace.misses.is_missed(i)}
            self.abandoning(lambda: self.sender.wear(missed))
            self.settle()

    def after_packet(self):
        """A SACK for every packet with a piece or FORWARD, at once or within 200 ms, and a SHUTDOWN
        with it while one is unanswered (sections 6.2 and 9.2, RFC 3758 section 3.6)."""
        if not (self.data_acted or self.forward_acted) or self.state == CLOSED:
            return
        if self.sack_may_wait():
            self.sack_wait = min(self.now + SACK_DELAY, LAST_MOMENT)
        else:
            self.due.add('sack')
        if self.state == SENT:
            self.due.add('shutdown')
            if self.data_acted and self.config.standard_closing:
                self.timers['shutdown'].renew(self.now)

    def sack_may_wait(self):
        """The first packet since the last SACK, with nothing that asks for one at once: no I flag, no
        FORWARD, each piece taken, no gap left, no SHUTDOWN of this end's unanswered (section 6.2)."""
        is_second = 'sack' in self.due or self.sack_wait is not None
        return (self.config.delay and not is_second and not self.at_once and not self.forward_acted
                and not self.receiver.seen and self.state != SENT)

    def row(self, found):
        """What the state table has for this chunk in this state, or None."""
        kind, state = found.kind, self.state
        if kind == wire.INIT_ACK and state == COOKIE_WAIT:
            return self.init_ack
        if kind == wire.COOKIE_ECHO and state in (ESTABLISHED, PENDING, SENT, RECEIVED):
            return self.cookie_again if self.key is not None else None
        if kind == wire.COOKIE_ACK and state == COOKIE_ECHOED:
            return self.cookie_acked
        if kind in (wire.DATA, wire.I_DATA) and state in (ESTABLISHED, PENDING, SENT):
            return self.piece
        if kind in (wire.FORWARD_TSN, wire.I_FORWARD_TSN) and state in (ESTABLISHED, PENDING, SENT):
            return self.forward
        if kind == wire.SACK and state in (ESTABLISHED, PENDING, RECEIVED):
            return self.sack
        if kind == wire.HEARTBEAT and (state == ESTABLISHED or state in SHUTDOWN_STATES):
            return self.heartbeat_came
        if kind == wire.HEARTBEAT_ACK:
            return self.heartbeat_acked
        if kind == wire.ERROR:
            return self.error
        if kind == wire.ABORT:
            return lambda found: self.close(ABORTED)
        if kind == wire.SHUTDOWN and state in (ESTABLISHED, PENDING, RECEIVED, SENT, ACK_SENT):
            return self.shutdown_came
        if kind == wire.SHUTDOWN_ACK and state in (SENT, ACK_SENT):
            return self.shutdown_ack_came
        if kind == wire.SHUTDOWN_COMPLETE and state == ACK_SENT:
            return lambda found: self.close(COMPLETED)
        return None

    def other_row(self, found):
        """A RE-CONFIG is of an unknown type where it wasn't agreed on, and where no data is taken any more."""
        takes = self.may_reset and self.state in (ESTABLISHED, PENDING, SENT)
        return self.reconfig if takes and found.kind == wire.RE_CONFIG else self.unknown

    def unknown(self, found):
        """Section 3.2, the two highest bits."""
        stop, report = wire.unknown_rule(found.kind >> 6)
        if report and self.state != COOKIE_WAIT:
            self.report(item(wire.UNRECOGNIZED_CHUNK, found.raw))
        return 'stop' if stop else None

    def abort_with(self, cause, tag=None):
        """A fault of the peer ends the association with an ABORT (section 9.1)."""
        self.close(ABORTED_HERE)
        self.answer(self.peer_tag if tag is None else tag, chunk(wire.ABORT, cause))

    def violation(self):
        self.abort_with(item(wire.PROTOCOL_VIOLATION))

    def init_ack(self, found):
        """Sections 5.1 and 3.3.3; the first of these that holds counts."""
        opening = Opening(found)
        if opening.tag == 0:
            raise PacketEnds('dropped', WRONG_TAG)
        if opening.no_streams:
            self.abort_with(item(wire.INVALID_PARAMETER), opening.tag)
        if opening.cookie is None:
            self.abort_with(item(wire.MISSING_PARAMETER, struct.pack('>IH', 1, wire.STATE_COOKIE)), opening.tag)
        if padded(4 + len(opening.cookie)) > self.body_limit():
            self.abort_with(item(wire.OUT_OF_RESOURCE), opening.tag)
        self.associate(opening.tag, opening.tsn, opening.rwnd, min(self.config.outbound, opening.inbound),
                       min(opening.outbound, self.config.inbound), *self.config.agreed(opening))
        self.cookie = opening.cookie
        self.enter(COOKIE_ECHOED)
        self.report_parameters(opening.reports)

    def report_parameters(self, wholes):
        """Cause 8 with the parameters to be reported, each that fits."""
        taken = []
        for whole in wholes:
            more = taken + [whole]
            if self.error_fits([item(wire.UNRECOGNIZED_PARAMETERS, wire.item_list(more))]):
                taken = more
        if taken:
            self.causes.append(item(wire.UNRECOGNIZED_PARAMETERS, wire.item_list(taken)))

    def cookie_again(self, found):
        """A cookie that comes again, stale or not, with both tags (section 5.2.4, case D)."""
        cookie, fault, _ = self.open_cookie(found.value, self.own_tag)
        if fault not in (0, wire.STALE) or cookie.peer_tag != self.peer_tag:
            raise PacketEnds('dropped', BAD_COOKIE)
        self.due.add('cookie ack')

    def cookie_acked(self, _):
        """Section 5.1. A COOKIE ECHO that went out once measures a round trip (6.3.1, C5)."""
        timer = self.timers['cookie echo']
        is_timed = timer.count == 0 and timer.expiry is not None
        self.measured(min(self.now - (timer.expiry - self.waits.first), LONGEST_WAIT) if is_timed else None, timer.wait)
        self.enter(ESTABLISHED)
        self.is_idle()

    def measured(self, trip, wait):
        """The first round trip is the handshake's; where it has none the RTO is the one that its timer had then (6.3.3, E2)."""
        if self.pace is not None:
            if trip is not None:
                self.pace.trips.measure(trip)
                wait = self.pace.trips.rto(self.waits)
            self.timers['data'].wait = wait

    def before(self):
        """The sender before an acknowledgement; an end without a pace asks for it only to see what a SACK acknowledges."""
        return None if self.pace is None and not self.config.progress else Before(self.sender)

    def acknowledged(self, before):
        """An acknowledgement that its sender took: a data timer that rests starts if data is in flight (6.3.2, R4), and what an end with a pace does
        (6.3.1; 6.3.2, R3; 7.2)."""
        timer, starts_anew = self.timers['data'], False
        if self.pace is not None:
            computes, starts_anew = self.pace.heard(self.now, before, self.sender)
            if computes:
                timer.wait = self.pace.trips.rto(self.waits)
        if starts_anew if timer.expiry is not None else self.sender.in_flight() > 0:
            timer.restart(self.now)

    def is_in_vain(self, before):
        """A SACK that acknowledges nothing new, of a peer with room for a fragment, clears no count (8.1); without room it is probed (6.1, rule A)."""
        return (self.config.progress and self.sender.cum == before.cum and not before.newly_covered(self.sender)
                and self.sender.rwnd >= self.config.fragment)

    def piece(self, found):
        piece = Piece(found)
        if not piece.data:
            self.abort_with(item(wire.NO_USER_DATA, struct.pack('>I', piece.tsn)))     # section 6.2
        if piece.interleave != self.interleave:
            self.violation()                                                # RFC 8260 section 2.2.1
        if self.config.strict and self.receiver.is_misnumbered(piece):
            self.violation()                                                # RFC 8260 section 2.1
        self.data_acted = True
        answer = self.receiver.on_data(piece)
        if piece.immediate or answer != PIECE_TAKEN:
            self.at_once = True
        if answer == NO_SUCH_STREAM:
            self.report(item(wire.INVALID_STREAM, struct.pack('>HH', piece.stream, 0)))   # section 6.5

    def forward(self, found):
        forward = Forward(found)
        if forward.interleave != self.interleave or not self.partial:
            self.violation()
        if self.receiver.on_forward(forward) == BAD:
            self.violation()
        self.forward_acted = True

    def sack(self, found):
        """Sections 6.2.1 and 6.3.2."""
        cum, before = self.sender.cum, self.before()
        refusal = self.sender.on_sack(Sack(found))
        if refusal == STALE_SACK:
            return
        if refusal is not None:
            self.violation()
        timer = self.timers['data']
        if not self.is_in_vain(before):
            timer.count = 0
        if not self.sender.unsettled():
            timer.stop()
        if self.sender.cum > cum:
            timer.wait = self.waits.first
            timer.begin_anew(self.now)
        self.acknowledged(before)
        self.want_forward()

    def reconfig(self, found):
        """RFC 6525 section 5.2: its parameters act one after the other; a value that isn't a list of them has none."""
        for kind, whole in wire.read_items(found.value) or ():
            value = whole[4:]
            if kind != wire.RECONFIG_RESPONSE:
                self.receiver.resets.on_parameter(kind, value, self.config.limit)
            elif len(value) >= 8:
                self.response(*struct.unpack('>II', value[:8]))

    def response(self, number, result):
        """RFC 6525 section 5.2.7: the timer of a request that waits on begins anew where it runs, with its first wait, and no
        expiry counts any more; that of one that is answered is as it was at first."""
        timer = self.timers['request']
        if self.sender.resets.on_response(number, result):
            timer.count, timer.wait = 0, self.request_wait()
            timer.begin_anew(self.now)
        if self.sender.resets.pending is None:
            self.due.discard('request')
            self.timers['request'] = Timer(self.config.repeats, self.waits)

    def heartbeat_came(self, found):
        """Section 8.3; the latest one alone is answered."""
        if padded(4 + len(found.value)) <= self.body_limit():
            self.heartbeat = found.value
            self.due.add('heartbeat ack')

    def error(self, found):
        """Section 5.2.6: a stale cookie ends the opening."""
        causes = [kind for kind, _ in wire.read_items(found.value)]
        if self.state == COOKIE_ECHOED and wire.STALE_COOKIE in causes:
            self.close(STALE_COOKIE)

    def shutdown_came(self, found):
        """Section 9.2. With the RFC's timers a cumulative TSN that moves counts as that of a SACK (6.3.2, 8.1)."""
        if self.state in (ESTABLISHED, PENDING, RECEIVED):
            cum, before = self.sender.cum, self.before()
            refusal = self.sender.on_shutdown(struct.unpack('>I', found.value)[0])
            if refusal not in (None, STALE_SACK):
                self.violation()
            if self.sender.cum > cum and self.config.standard_closing:
                if not self.sender.unsettled():
                    self.timers['data'].stop()
                self.timers['data'].renew(self.now)
            if refusal is None:
                self.acknowledged(before)
            self.enter(RECEIVED)
        else:
            self.enter(ACK_SENT)

    def shutdown_ack_came(self, found):
        self.close(COMPLETED)
        self.answer(self.peer_tag, chunk(wire.SHUTDOWN_COMPLETE))
