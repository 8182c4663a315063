#!/usr/bin/env python3
"""Rows of the options that no call sets yet, with known answers: HEARTBEATs, a count that only progress clears, closing as a whole, window updates, the
reserve, gap blocks, long messages, bytes that wait, strict endpoints, zero checksums, waits and limits of repeats.

The numbers are those of `BeatExamples`, `AliveExamples`, `QueueExamples`, `StrictExamples` and `EndExamples` of sctp_outcomes, and some by hand. Prints what
differs and how many passed; status 1 where one differs.
"""

import struct
import sys

import wire
from config import (Config, WRONG_GROWTH, WRONG_MESSAGE, WRONG_QUEUE, WRONG_RESERVE, WRONG_WAIT)
from endpoint import ESTABLISHED, LAST_MOMENT, RECEIVED, SENT, TIMED_OUT, Endpoint
from limited_rows import row, run
from receiver import NO_ROOM, PASSED, TAKEN, Receiver
from sender import EMPTY, QUEUE_FULL, SPENT, TOO_LONG, Sender
from wire import chunk, item

KEY = bytes(range(32))


def config(fragment=1400, limit=1500, partial=False, interleave=False, reset=False, streams=3, **further):
    return Config(5000, 5001, limit, fragment, 65536, streams, partial, interleave, reset=reset, **further)


class End:
    """An endpoint with the tag 7, opened without packets, whose peer has the tag 9; both first TSNs are 1."""

    def __init__(self, **options):
        self.end = Endpoint.opened(config(**options), (7, 1), (9, 1))

    def at(self, moment):
        self.end.on_moment(moment)
        return self

    def build(self):
        packet, _ = self.end.poll_transmit(self.end.now)
        return packet and wire.Packet(packet, zero=True)

    def comes(self, *chunks):
        self.end.handle_packet(self.end.now, wire.packet(5001, 5000, 7, chunks), (1, 1))
        return self

    def sack(self, tsn, rwnd, *blocks):
        return self.comes(wire.sack_chunk(tsn, rwnd, blocks, []))

    def sends(self, data=b'a'):
        self.end.send(0, True, 0, data, None)
        self.build()
        return self

    @property
    def next(self):
        return self.end.next_moment()

    @property
    def data_timer(self):
        """Its count and its wait."""
        return self.end.timers['data'].count, self.end.timers['data'].wait

    @property
    def is_due(self):
        return 'heartbeat' in self.end.due

    @property
    def beats(self):
        return self.end.beats.made, self.end.beats.sent


# ---- HEARTBEATs (8.1 and 8.3): interval 30,000 ms, RTO 1,000 ms, tag 7 ----

def idle(**options):
    return End(heartbeat=30000, **options)


def asked(**options):
    made = idle(**options).at(30507)
    made.build()
    return made


def answered(made, moment, number=None):
    """With the bytes of the last one, or those of another number."""
    value = made.end.beats.info(1) if number is None else item(1, struct.pack('>I', number))
    made.end.take_moment(moment)
    return made.comes(chunk(wire.HEARTBEAT_ACK, value))


row('the interval, half of the RTO, and 7 ms by the tag', (idle().next, End().next), (30507, None))
row('then one is due', [(idle().at(moment).is_due, idle().at(moment).beats, idle().at(moment).next) for moment in (30506, 30507)],
    [(False, (0, None), 30507), (True, (1, None), 61021)])
row('its chunk', [one.raw.hex() for one in idle().at(30507).build().chunks], ['0400000c' '00010008' '00000001'])
row('its place in a packet', (lambda made: (made.comes(chunk(wire.HEARTBEAT, b'abcd'), wire.data_chunk(False, 3, 1, 0, 0, 0, b'a')),
                                            [one.kind for one in made.build().chunks])[1])(idle().at(30507)),
    [wire.HEARTBEAT_ACK, wire.HEARTBEAT, wire.SACK])
row('one that was never built isn\'t lost', (lambda made: (made.beats, made.data_timer))(idle().at(30507).at(61021)), ((2, None), (0, 1000)))
row('unanswered: one is counted, the RTO doubled', (lambda made: (made.data_timer, made.is_due, made.beats, made.next))(asked().at(61021)),
    ((1, 2000), True, (2, None), 92042))
row('answered after 80 ms', (lambda made: (made.beats, made.at(61021).beats, made.data_timer))(answered(asked(), 30587)), ((1, None), (2, None), (0, 1000)))


def late():
    made = asked().at(61021)
    made.build()
    return made


row('a late answer clears the count, and the RTO is the first again', answered(late(), 62000).data_timer, (0, 1000))
row('an answer to an earlier one changes nothing', (lambda made: (made.beats, made.data_timer))(answered(late(), 62000, 1)), ((2, 61021), (1, 2000)))
row('nor does a second answer, nor one without value', (answered(answered(asked(), 30587), 30600).beats,
                                                        asked().comes(chunk(wire.HEARTBEAT_ACK)).beats), ((1, None), (1, 30507)))
row('with a pace it measures', (lambda made: (made.end.pace.trips.eight, made.data_timer))(answered(asked(fast_retransmit=True, rto_min=0), 30587)),
    (640, (0, 240)))


def counted(repeats, count):
    made = asked(repeats=repeats)
    made.end.timers['data'].count = count
    return made.at(61021)


row('the third of two, the first of none ends the association', [(made.end.state, made.end.ended) for made in (counted(2, 1), counted(2, 2), counted(0, 0))],
    [(ESTABLISHED, None), ('Closed', TIMED_OUT), ('Closed', TIMED_OUT)])
row('and nothing runs any more', counted(2, 2).next, None)


def flying():
    """A HEARTBEAT waits for its answer, and data is in flight: its timer counts."""
    made = asked()
    timer = made.end.timers['data']
    timer.wait = 60000
    made.sends()
    timer.count, timer.expiry = 2, 70000
    made.end.timers['heartbeat'].expiry = 61021
    return made.at(61021)


row('while data is in flight none is sent', (lambda made: (made.is_due, made.data_timer, made.beats, made.end.timers['heartbeat'].expiry))(flying()),
    (False, (2, 60000), (1, None), 121035))
row('a packet with fragments starts their timer anew', (lambda made: (made.at(1000).sends().end.timers['heartbeat'].expiry))(idle()), 31507)
row('one without doesn\'t', (lambda made: (made.at(1000).comes(wire.data_chunk(False, 3, 1, 0, 0, 0, b'a')), made.build(), made.next)[2])(idle()), 30507)
row('beside the last moment', (lambda made: (made.at(LAST_MOMENT - 5).next, made.is_due))(idle()), (LAST_MOMENT, True))


def closes(made):
    """It is told to close, and has nothing to be acknowledged."""
    made.end.shutdown()
    return made


row('none in ShutdownSent', (lambda made: (made.end.state, made.end.timers['heartbeat'].expiry))(closes(idle())), (SENT, None))
row('nor is one that was due', closes(idle().at(30507)).is_due, False)


# ---- SACKs that acknowledge nothing (8.1): one fragment in flight, sent again three times ----

def vain(progress, tsn, rwnd):
    made = End(progress=progress).sends(b'ab')
    made.end.timers['data'].count, made.end.timers['data'].wait = 3, 8000
    return made.sack(tsn, rwnd).data_timer[0]


row('with progress: nothing acknowledged, no room at the peer, something acknowledged; and without it',
    [vain(True, 0, 65536), vain(True, 0, 1399), vain(True, 1, 65536), vain(False, 0, 65536)], [3, 0, 0, 0])
row('a gap block is progress', (lambda made: (made.sends(), setattr(made.end.timers['data'], 'count', 3), made.sack(0, 65536, (2, 2)).data_timer[0],
                                              made.sack(0, 65536, (2, 2)).data_timer[0])[2:])(End(progress=True).sends()), (0, 0))


def stands(progress):
    """How long a peer lives that acknowledges nothing and answers each packet."""
    made = End(progress=progress).sends()
    for _ in range(12):
        if made.next is None:
            break
        made.at(made.next)
        if made.build() is not None:
            made.sack(0, 65536)
    return made.end.ended


row('it is given up', (stands(True), stands(False)), (TIMED_OUT, None))


# ---- Closing as a whole (9.2) ----

def closing(**options):
    made = closes(End(**options))
    made.build()
    return made


row('from the first SHUTDOWN on, whatever is sent later', (closing(guard=True).end.timers['guard'].expiry, closing().end.timers['guard'].expiry,
                                                           (lambda made: (made.at(1000), made.build(), made.end.timers['guard'].expiry)[2])(closing(guard=True))),
    (300000, None, 300000))
row('five times RTO.Max', closing(guard=True, longest_wait=2000).end.timers['guard'].expiry, 10000)


def kept(**options):
    """Its peer sends data each second, by which the SHUTDOWN's timer begins anew. When it is over."""
    made = closing(**options)
    for second in range(1, 400):
        made.at(1000 * second).comes(wire.data_chunk(False, 3, second, 0, second - 1, 0, b'a'))
        made.build()
        if made.end.ended:
            return second
    return None


row('a peer that sends for ever', (kept(standard_closing=True, guard=True), kept(standard_closing=True)), (300, None))


# ---- Window updates (6.2) ----

def takes(offered, updates=True, state=ESTABLISHED):
    made = End(updates=updates).end
    made.offered, made.state = offered, state
    made.take(0)
    return 'sack' in made.due


row('a quarter of the buffer, a byte less, without the option, a peer that sends no more',
    [takes(49152), takes(49153), takes(0, updates=False), takes(0, state=RECEIVED)], [True, False, False, False])


def read(*lengths):
    """Messages of these lengths arrive and are taken: which of the takes make a SACK due, and what it says."""
    made, said = End(updates=True), []
    for at, length in enumerate(lengths):
        made.comes(wire.data_chunk(False, 3, 1 + at, 0, at, 0, bytes(length)))
        made.build()
    for _ in lengths:
        made.end.take(0)
        built = made.build()
        said.append(None if built is None else wire.Sack(built.chunks[0]).rwnd)
    return said


row('of twelve messages of 5,000 bytes', read(*[5000] * 12), [None, None, None, 25536, None, None, None, 45536, None, None, None, 65536])


# ---- The reserve (6.2): a buffer of 100 bytes ----

def piece(tsn, length, number=0):
    return wire.Piece(wire.Chunk(wire.data_chunk(False, 3, tsn, 0, number, 0, bytes(length))[:16 + length]))


def answers(reserve, tsn, length):
    return Receiver(False, 1, 1, 100, reserve).on_data(piece(tsn, length))


row('the next one may fill the buffer, one after a gap leaves the reserve',
    [answers(40, 1, 100), answers(40, 1, 101), answers(40, 2, 60), answers(40, 2, 61), answers(0, 2, 100)], [TAKEN, NO_ROOM, TAKEN, NO_ROOM, TAKEN])


def full(reserve, many, tsn, length):
    made = Receiver(False, 1, 1, 100, reserve)
    assert made.on_data(piece(2, many, 1)) == TAKEN
    return made.on_data(piece(tsn, length, tsn - 1))


row('behind a gap it is full', [full(40, 60, 1, 40), full(40, 60, 1, 41), full(40, 60, 3, 1), full(0, 100, 1, 1)], [TAKEN, NO_ROOM, NO_ROOM, NO_ROOM])
row('it isn\'t advertised', [Receiver(False, 1, 1, 100, reserve).room() for reserve in (40, 0, 100)], [60, 100, 0])


# ---- Gap blocks (3.3.4) ----

row('at most', [config(limit=limit, fragment=500, all_blocks=every).most_blocks for limit, every in ((1500, False), (1500, True), (576, True))], [64, 352, 121])


def told(every, gaps, duplicates=0):
    made = End(all_blocks=every)
    for at in range(gaps):
        made.comes(wire.data_chunk(False, 3, 2 + 2 * at, 0, 0, 0, b'a'))
    for _ in range(duplicates):
        made.comes(wire.data_chunk(False, 3, 2, 0, 0, 0, b'a'))
    sack = wire.Sack(made.build().chunks[0])
    return len(sack.blocks), len(sack.duplicates)


row('of 400 gaps, and with duplicates', [told(True, 400), told(False, 400), told(True, 400, 20)], [(352, 0), (64, 0), (352, 16)])


# ---- Long messages, bytes that wait (6.9 and 11.1.5) ----

def refusals(sender, *lengths):
    return [min(sender.send(0, True, 0, bytes(length), None), 1) for length in lengths]


row('the longest message', [refusals(Sender(False, 1, 1, 1400, 100, True, longest), 262144) for longest in (262144, 262143)], [[1], [-TOO_LONG]])
row('without the option', refusals(Sender(False, 1, 1, 1400, 100, True), 65536, 65537, 0), [1, -TOO_LONG, -EMPTY])


def waiting(most):
    made = Sender(False, 1, 1, 4, 100, True, most_queued=most)
    assert refusals(made, *[1] * 9) == [1] * 9
    return made


row('as many bytes as may wait, and one more', [refusals(waiting(10), 1), refusals(waiting(10), 2), refusals(waiting(None), 2)], [[1], [-QUEUE_FULL], [1]])


def leaves():
    """A message leaves the queue whole with its first fragment, or withdrawn."""
    made = End(queue_bytes=65536, fragment=1000)
    return [min(made.end.send(0, True, 0, bytes(40000), None), 1), min(made.end.send(0, True, 0, bytes(25537), None), 1),
            min(made.end.send(0, True, 0, bytes(25536), None), 1), made.end.abandon(2), min(made.end.send(0, True, 0, bytes(25536), None), 1),
            made.build() is not None, min(made.end.send(0, True, 0, bytes(40000), None), 1)]


row('what leaves the queue makes room', leaves(), [1, -QUEUE_FULL, 1, 1, 1, True, 1])


def spent(promised):
    """A message of three fragments, of which one has an index, one of two waits, and so many TSNs are promised: the refusals of 9 and of 5 bytes."""
    made = Sender(True, 1, 1, 4, 100, True)
    made.send(0, True, 0, bytes(9), None)
    made.fill(type('', (), {'room': lambda self, size: not self.full, 'put': lambda self, one: self.fills(), 'full': False,
                            'fills': lambda self: not self.full and (setattr(self, 'full', True) or True)})())
    made.send(0, True, 0, bytes(5), None)
    made.last = lambda: promised - 6
    return refusals(made, 9) + refusals(made, 5)


row('TSNs that are promised', [spent(2**63 - 1 - 4), spent(2**63 - 1 - 3)], [[1, -SPENT], [-SPENT, 1]])


# ---- Strict endpoints (RFC 8260, 2.1) ----

def idata(tsn, number, word, first=False, last=True):
    return wire.data_chunk(True, 2 * first + last, tsn, 0, number, word, b'a')


def holds_two(**options):
    """The fragments 0 and 1 of message 0, at the TSNs 1 and 2."""
    return End(interleave=True, **options).comes(idata(1, 0, 7, first=True, last=False), idata(2, 0, 1, last=False))


def misnumbered(*chunks):
    return [holds_two().end.receiver.is_misnumbered(wire.Piece(wire.Chunk(one[:21]))) for one in chunks]


row('a fragment without B says 0; fragment 1 has another TSN', misnumbered(idata(3, 0, 0), idata(4, 0, 1)), [True, True])
row('the next fragment; the same chunk; the first of the next message', misnumbered(idata(3, 0, 2), idata(2, 0, 1, last=False), idata(3, 1, 0, first=True)),
    [False, False, False])
row('an old or a distant one isn\'t looked at, unless it says 0', misnumbered(idata(1, 0, 1), idata(40000, 0, 1), idata(1, 0, 0)), [False, False, True])
row('the end of the association', [(lambda made: made.comes(idata(4, 0, 1)).end.state)(holds_two(strict=strict)) for strict in (True, False)],
    ['Closed', ESTABLISHED])


def passes_over():
    made = holds_two().end.receiver
    return [made.on_data(wire.Piece(wire.Chunk(one[:21]))) for one in (idata(4, 0, 1), idata(3, 0, 0))]


row('without it they are passed over', passes_over(), [PASSED, PASSED])


def init_ack(strict, asks, **listens):
    """The parameters of the INIT ACK to an INIT with the options of another configuration, but for the cookie."""
    listener = Endpoint(Config(5001, 5000, 1500, 1400, 65536, 3, *listens.pop('mode'), strict=strict, **listens), KEY)
    caller = Endpoint(asks)
    caller.connect(0, (7, 1))
    packet, _ = caller.poll_transmit(0)
    _, answer = listener.handle_packet(0, packet, (9, 1))
    return [whole.hex() for _, whole in wire.read_items(wire.Packet(answer).chunks[0].value[16:])[1:]]


ALL = {'mode': (True, True), 'reset': True, 'zero_checksum': True}
row('an INIT ACK says what was agreed on alone', [init_ack(strict, config(partial=True), **ALL) for strict in (True, False)],
    [['c0000004', '80080005c0'], ['c0000004', '800800084082c0c2', '8001000800000001']])
row('of nothing that is asked for nothing', init_ack(True, config(), **ALL), [])
row('of all that is asked for all', init_ack(True, config(partial=True, interleave=True, reset=True, zero_checksum=True), **ALL),
    init_ack(False, config(), **ALL))


# ---- Zero checksums (RFC 9653) ----

def opening(*parameters):
    return wire.Opening(wire.Chunk(chunk(wire.INIT, wire.init_value(7, 65536, 1, 1, 1, parameters))))


def agreed(own, *parameters):
    return config(zero_checksum=own).agreed(opening(*parameters))[3]


DTLS, OTHER_METHOD, LONGER = (item(wire.ZERO_CHECKSUM, value) for value in (bytes((0, 0, 0, 1)), bytes((0, 0, 0, 2)), bytes((0, 0, 0, 1, 0))))
row('both, the peer alone, the endpoint alone', [agreed(True, DTLS), agreed(False, DTLS), agreed(True)], [True, False, False])
row('another method, another length, the first of two', [agreed(True, OTHER_METHOD), agreed(True, LONGER), agreed(True, OTHER_METHOD, DTLS),
                                                          agreed(True, DTLS, OTHER_METHOD)], [False, False, False, True])
row('it is known, and never reported', [opening(DTLS).reports, opening(item(0x8001)).reports, len(opening(item(0xC001)).reports)], [[], [], 1])


def opened(own, peer):
    """Two that open an association by packets; whether each agreed on it, and the checksums of INIT, COOKIE ECHO and data that are 0."""
    ends = {'A': Endpoint(config(zero_checksum=own)), 'B': Endpoint(Config(5001, 5000, 1500, 1400, 65536, 3, False, False, zero_checksum=peer), KEY)}
    ends['A'].connect(0, (7, 1))
    sums = []
    for x, y in ('AB', 'AB', 'BA', 'AB'):
        if ends[x].state == ESTABLISHED and x == 'A':
            ends[x].send(0, True, 0, b'a', None)
        packet, _ = ends[x].poll_transmit(0)
        sums.append(packet[8:12] == bytes(4))
        verdict = ends[y].handle_packet(0, packet, (9, 1))
        if verdict[0] == 'answer':
            ends[x].handle_packet(0, verdict[1], (1, 1))
    return [ends[x].zero_checksum for x in 'AB'], sums, ends['B'].receiver.held


row('INIT, COOKIE ECHO, COOKIE ACK, data', [opened(*both) for both in ((True, True), (True, False), (False, True))],
    [([True, True], [False, False, True, True], 1)] + [([False, False], [False] * 4, 1)] * 2)


def cookie(options, **listens):
    """Whether a cookie that says these options opens at such a listener."""
    listener = Endpoint(Config(5000, 5001, 1500, 1400, 65536, 3, False, False, **listens), KEY)
    made = wire.Cookie(0, 5000, 5001, 9, 7, 1, 1, 65536, 1, 1, options)
    return listener.open_cookie(made.seal(KEY), 9)[1] == 0


row('a cookie that says it opens at a listener that may have made it', [cookie(wire.ZERO), cookie(wire.ZERO, zero_checksum=True), cookie(0), cookie(wire.RESET)],
    [False, True, True, False])


# ---- Waits and limits of repeats (16) ----

def expiries(**options):
    """The moments at which an endpoint whose data is lost sends it again."""
    made, moments = End(**options).sends(), []
    while made.next is not None:
        moments.append(made.next)
        made.at(made.next)
        made.build()
    return moments


row('RTO.Initial 100, RTO.Max 500, four repeats', expiries(first_wait=100, longest_wait=500, repeats=4), [100, 300, 700, 1200, 1700])


def calls(**options):
    made = Endpoint(config(**options))
    made.connect(0, (7, 1))
    moments = []
    made.poll_transmit(0)
    while made.next_moment() is not None:
        moments.append(made.next_moment())
        made.on_moment(made.next_moment())
        made.poll_transmit(made.now)
    return moments


row('INIT, two repeats', calls(first_wait=100, longest_wait=150, opening_repeats=2), [100, 250, 400])

# ---- Faults of a configuration ----

row('faults', [config(**one).fault() for one in (
    {'first_wait': 0}, {'longest_wait': 999}, {'longest_wait': 60001}, {'reserve': 65537}, {'longest_message': 45873801},
    {'longest_message': 45873800, 'reserve': 65536, 'first_wait': 1, 'longest_wait': 1}, {'queue_bytes': 65535}, {'queue_bytes': 65536},
    {'growth': 0}, {'growth': 16}, {'growth': 17})],
    [WRONG_WAIT, WRONG_WAIT, WRONG_WAIT, WRONG_RESERVE, WRONG_MESSAGE, None, WRONG_QUEUE, None, WRONG_GROWTH, None, WRONG_GROWTH])


if __name__ == '__main__':
    sys.exit(run())
