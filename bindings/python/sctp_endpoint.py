"""One endpoint of an SCTP association (RFC 9260, with FORWARD-TSN of RFC 3758, I-DATA of RFC 8260 and stream reset of RFC 6525), by ctypes over
libsctp_endpoint.so.

The library opens no socket, reads no clock and generates no random numbers but those of `Draw()`: received packets and the current time are
arguments, packets to send and received messages are results. `SCTP_ENDPOINT_LIBRARY` names the library's file; else the loader looks for
libsctp_endpoint.so.1. An endpoint is used by one thread at a time.

Times are milliseconds on any clock that doesn't go back. Data may be bytes, bytearray or memoryview. A call that the library refuses raises
`Refused`; an argument of a wrong type raises TypeError, and a number out of its range ValueError.
"""

import ctypes
import enum
import os
import secrets
from ctypes import POINTER, Structure, byref, c_bool, c_char_p, c_size_t, c_uint8, c_uint16, c_uint32, c_uint64, c_void_p, string_at
from typing import Callable, Dict, List, NamedTuple, Optional

LONGEST_PACKET = 1500
LONGEST_MESSAGE = 65536
_MOST_TICKETS = 74
_NEVER = 2**64 - 1
_OK, _NOTHING = 0, 9


class Refused(Exception):
    """The library refused a call, which changed nothing: `result` says why, `str` in words."""

    def __init__(self, result: "Result"):
        super().__init__(f"{result.name}: {_text('name', result)}")
        self.result = result


class Result(enum.IntEnum):
    OK = 0
    NO_SUCH_STREAM = 1
    EMPTY = 2
    TOO_LONG = 3
    QUEUE_FULL = 4
    SPENT = 5
    NO_MEMORY = 6
    NOT_OPEN = 7
    BAD_STATE = 8
    NOTHING = 9
    NEEDS_ROOM = 10
    MISUSE = 11
    BAD_DRAW = 12
    BAD_RESERVED = 13
    RESETTING = 14
    NO_CHANNEL = 15
    NO_STREAM = 16
    WRONG_HALF = 17
    USED = 18
    OUT_OF_RANGE = 19
    BAD_PORT = 21
    BAD_PACKET_LIMIT = 22
    BAD_FRAGMENT = 23
    BAD_BUFFER = 24
    BAD_STREAMS = 25
    ZERO_KEY = 26


class State(enum.IntEnum):
    CLOSED = 1
    LISTEN = 2
    COOKIE_WAIT = 3
    COOKIE_ECHOED = 4
    ESTABLISHED = 5
    SHUTDOWN_PENDING = 6
    SHUTDOWN_SENT = 7
    SHUTDOWN_RECEIVED = 8
    SHUTDOWN_ACK_SENT = 9


class Ended(enum.IntEnum):
    COMPLETED = 1
    ABORTED = 2
    ABORTED_HERE = 3
    TIMED_OUT = 4
    STALE_COOKIE = 5


class Fate(enum.IntEnum):
    WITHDRAWN = 1
    ABANDONED = 2
    ACKNOWLEDGED = 3
    UNKNOWN = 4
    RELIABLE = 5


class Reason(enum.IntEnum):
    FAULT = 1
    PORTS = 2
    TAG = 3
    STATE = 4
    COOKIE = 5


def _number(value: int, bits: int, name: str) -> int:
    """The number itself, if it is an unsigned one of so many bits."""
    if not isinstance(value, int):
        raise TypeError(f"{name} is an int, not {type(value).__name__}")
    if not 0 <= value < 2**bits:
        raise ValueError(f"{name} is {value}: it isn't in 0 to 2^{bits} - 1")
    return int(value)


def _data(value, name: str) -> bytes:
    """The bytes of bytes, a bytearray or a memoryview."""
    if not isinstance(value, (bytes, bytearray, memoryview)):
        raise TypeError(f"{name} is bytes, a bytearray or a memoryview, not {type(value).__name__}")
    return bytes(value)


class _Handle(Structure):
    _fields_ = [("full", c_size_t), ("at", c_void_p)]


class Config(Structure):
    """What an endpoint is configured with; sctp_endpoint.h has the meaning and range of each option.

    The receive buffer, 4 MiB unless `buffer` says another size, has at least the number of streams the peer sends on times its longest
    message (here 64 x 65,536): else, with `interleave`, messages in part on several streams can fill it, and nothing more is received.
    """

    _fields_ = [
        ("own_port", c_uint16),
        ("peer_port", c_uint16),
        ("packet_limit", c_uint16),
        ("fragment", c_uint16),
        ("buffer", c_uint32),
        ("outbound", c_uint16),
        ("inbound", c_uint16),
        ("interleave", c_bool),
        ("partial", c_bool),
        ("delay", c_bool),
        ("standard_closing", c_bool),
        ("flags", c_uint32),
        ("rto_min", c_uint32),
        ("_reserved", c_uint32 * 2),
    ]

    def __init__(
        self,
        own_port: int,
        peer_port: int,
        *,
        packet_limit: int = 1232,
        fragment: int = 1200,
        buffer: int = 4 << 20,
        outbound: int = 64,
        inbound: int = 64,
        interleave: bool = True,
        partial: bool = True,
        delay: bool = False,
        standard_closing: bool = True,
        fast_retransmit: bool = False,
        congestion_control: bool = False,
        stream_reset: bool = False,
        rto_min: int = 1000,
    ):
        super().__init__()
        self.own_port, self.peer_port = own_port, peer_port
        self.packet_limit, self.fragment, self.buffer = packet_limit, fragment, buffer
        self.outbound, self.inbound = outbound, inbound
        self.interleave, self.partial = interleave, partial
        self.delay, self.standard_closing = delay, standard_closing
        self.flags, self.rto_min = bool(fast_retransmit) + 2 * bool(congestion_control) + 4 * bool(stream_reset), rto_min

    @classmethod
    def for_data_channels(cls, own_port: int = 5000, peer_port: int = 5000) -> "Config":
        """What a browser's data channels need, as SCTP_CHANNELS_CONFIG of sctp_channels.h: packets of 1,188 bytes and less, 1,024 streams each way, a
        receive buffer of 1 MiB, partial reliability without I-DATA, congestion control and stream reset."""
        return cls(
            own_port,
            peer_port,
            packet_limit=1188,
            fragment=1156,
            buffer=1 << 20,
            outbound=1024,
            inbound=1024,
            interleave=False,
            standard_closing=False,
            congestion_control=True,
            stream_reset=True,
        )

    def __setattr__(self, name: str, value) -> None:
        kind = dict(self._fields_).get(name)
        if kind is None:
            raise AttributeError(f"a configuration has no option {name}")
        super().__setattr__(name, bool(value) if kind is c_bool else _number(value, 8 * ctypes.sizeof(kind), name))


class Draw(Structure):
    """Two random values, from `secrets` unless they are given: a verification tag, which isn't 0, and a first TSN."""

    _fields_ = [("tag", c_uint32), ("tsn", c_uint32), ("_reserved", c_uint64)]

    def __init__(self, tag: Optional[int] = None, tsn: Optional[int] = None):
        super().__init__(
            tag=1 + secrets.randbelow(2**32 - 1) if tag is None else _number(tag, 32, "tag"),
            tsn=secrets.randbits(32) if tsn is None else _number(tsn, 32, "tsn"),
        )


class _Key(Structure):
    _fields_ = [("bytes", c_uint8 * 32), ("_reserved", c_uint32 * 4)]


class _Verdict(Structure):
    _fields_ = [("length", c_size_t), ("verdict", c_uint32), ("reason", c_uint32), ("_reserved", c_uint64)]


class _Sent(Structure):
    _fields_ = [("length", c_size_t), ("tickets", c_uint64), ("_reserved", c_uint64)]


class _Message(Structure):
    _fields_ = [
        ("length", c_size_t),
        ("number", c_uint64),
        ("payload_id", c_uint32),
        ("stream", c_uint16),
        ("ordered", c_bool),
        ("numbered", c_bool),
        ("_reserved", c_uint32 * 4),
    ]


class _Status(Structure):
    _fields_ = [
        ("next_moment", c_uint64),
        ("tickets", c_uint64),
        ("outstanding", c_uint64),
        ("queued", c_uint64),
        ("queued_bytes", c_uint64),
        ("held_bytes", c_uint64),
        ("peer_window", c_uint64),
        ("state", c_uint32),
        ("ended", c_uint32),
        ("outbound", c_uint16),
        ("inbound", c_uint16),
        ("interleaved", c_bool),
        ("partial", c_bool),
        ("reassembly_bytes", c_uint32),
        ("resetting", c_uint32),
        ("own_tag", c_uint32),
        ("_reserved", c_uint32),
    ]


class _Path(Structure):
    _fields_ = [
        ("in_flight", c_uint64),
        ("rto", c_uint64),
        ("srtt", c_uint32),
        ("rttvar", c_uint32),
        ("cwnd", c_uint32),
        ("ssthresh", c_uint32),
        ("flags", c_uint32),
        ("_reserved", c_uint32),
    ]


class _Counts(Structure):
    _fields_ = [
        ("packets_out", c_uint64),
        ("bytes_out", c_uint64),
        ("packets_in", c_uint64),
        ("bytes_in", c_uint64),
        ("first_sent", c_uint64),
        ("timer_retransmitted", c_uint64),
        ("fast_retransmitted", c_uint64),
        ("sacks_out", c_uint64),
        ("sacks_in", c_uint64),
        ("abandoned", c_uint64),
        ("dropped_fault", c_uint64),
        ("dropped_ports", c_uint64),
        ("dropped_tag", c_uint64),
        ("dropped_state", c_uint64),
        ("dropped_cookie", c_uint64),
        ("_reserved", c_uint64),
    ]


class Verdict(NamedTuple):
    """`answer` is to be sent at once, to the address the packet was received from. A packet with a `reason` was ignored.
    With neither the packet was processed: its tag was right, so the address it was received from is the peer's."""

    answer: Optional[bytes]
    reason: Optional[Reason]


class Sent(NamedTuple):
    packet: bytes
    tickets: List[int]


class Message(NamedTuple):
    stream: int
    ordered: bool
    number: Optional[int]
    payload_id: int
    bytes: bytes


class Status(NamedTuple):
    next_moment: Optional[int]
    state: State
    ended: Optional[Ended]
    tickets: int
    outstanding: int
    queued: int
    queued_bytes: int
    held_bytes: int
    reassembly_bytes: int
    peer_window: int
    outbound: int
    inbound: int
    interleaved: bool
    partial: bool
    resetting: int
    own_tag: Optional[int]


class Reset(NamedTuple):
    """A stream that the peer reset, and how many of the messages that are ready on it were sent before that: the first ones."""

    stream: int
    earlier: int


class Path(NamedTuple):
    """Bytes and milliseconds. `rto` is None before an association and without fast retransmission, `srtt` and `rttvar` before the first
    measurement, `cwnd` and `ssthresh` without congestion control."""

    in_flight: int
    rto: Optional[int]
    srtt: Optional[int]
    rttvar: Optional[int]
    cwnd: Optional[int]
    ssthresh: Optional[int]


class Counts(NamedTuple):
    """What an endpoint counted since it was made, each number modulo 2^64; sctp_endpoint.h says what each is. `dropped` has the packets that were
    ignored by their reason. A call that raises NO_MEMORY counts nothing."""

    packets_out: int
    bytes_out: int
    packets_in: int
    bytes_in: int
    first_sent: int
    timer_retransmitted: int
    fast_retransmitted: int
    sacks_out: int
    sacks_in: int
    abandoned: int
    dropped: Dict[Reason, int]


class PacketHeader(NamedTuple):
    """The ports and the verification tag of a packet: the tag is that of the endpoint which the packet is for, 0 with an INIT; with the T bit of an
    ABORT or a SHUTDOWN COMPLETE it is the sender's (RFC 9260, 8.5.1)."""

    source: int
    destination: int
    tag: int


class AbortCause(NamedTuple):
    """Why a peer aborted: the first cause, 12 for a user's abort (RFC 9260, 3.3.10), 0 if there is none; and its information, for 12 the reason."""

    cause: int
    info: bytes


_end, _bytes, _u64s = POINTER(_Handle), POINTER(c_uint8), POINTER(c_uint64)
_calls = {
    "caller": (_end, POINTER(Config)),
    "listener": (_end, POINTER(Config), POINTER(_Key)),
    "opened": (_end, POINTER(Config), POINTER(Draw), POINTER(Draw)),
    "key_derived": (POINTER(_Key), c_char_p, c_size_t, POINTER(_Key)),
    "free": (_end,),
    "connect": (_end, c_uint64, POINTER(Draw)),
    "handle_packet": (_end, c_uint64, c_char_p, c_size_t, POINTER(Draw), _bytes, c_size_t, POINTER(_Verdict)),
    "poll_transmit": (_end, c_uint64, _bytes, c_size_t, _u64s, c_size_t, POINTER(_Sent)),
    "on_moment": (_end, c_uint64),
    "send": (_end, c_uint16, c_bool, c_uint32, c_char_p, c_size_t, c_uint64, POINTER(c_uint64)),
    "send_with_max_retransmits": (_end, c_uint16, c_bool, c_uint32, c_char_p, c_size_t, c_uint64, c_uint16, POINTER(c_uint64)),
    "readable": (_end, c_uint16, POINTER(c_uint16)),
    "peek": (_end, c_uint16, POINTER(_Message)),
    "take": (_end, c_uint16, POINTER(_Message), _bytes, c_size_t),
    "abandon": (_end, c_uint64, POINTER(c_uint32)),
    "acknowledged": (_end, c_uint64, POINTER(c_bool)),
    "abandoned": (_end, c_uint64, POINTER(c_bool)),
    "reset": (_end, c_uint16),
    "resetting": (_end, c_uint16, POINTER(c_bool)),
    "take_reset": (_end, POINTER(c_uint16), POINTER(c_uint64)),
    "trim": (_end,),
    "shutdown": (_end,),
    "abort": (_end, c_char_p, c_size_t, _bytes, c_size_t, POINTER(c_size_t)),
    "status": (_end, POINTER(_Status)),
    "path": (_end, POINTER(_Path)),
    "counts": (_end, POINTER(_Counts)),
    "abi": (),
    "version": (c_char_p, c_size_t),
    "name": (c_uint32, c_char_p, c_size_t),
    "peek_packet": (c_char_p, c_size_t, POINTER(c_uint16), POINTER(c_uint16), POINTER(c_uint32)),
    "abort_cause": (c_char_p, c_size_t, POINTER(c_uint16), _bytes, c_size_t, POINTER(c_size_t)),
}
_RESULTS = {"free": None, "version": c_size_t, "name": c_size_t}


_library = ctypes.CDLL(os.environ.get("SCTP_ENDPOINT_LIBRARY", "libsctp_endpoint.so.1"))


def _bind(prefix: str, calls: dict) -> dict:
    """The library's calls with this prefix, by what follows it."""
    bound = {}
    for name, arguments in calls.items():
        call = getattr(_library, prefix + name)
        call.argtypes, call.restype = arguments, _RESULTS.get(name, c_uint32)
        bound[name] = call
    return bound


_call = _bind("sctp_endpoint_", _calls)
if _call["abi"]() != 1:
    raise ImportError("libsctp_endpoint.so.1 is for another version of this module")


def _text(name: str, *arguments) -> str:
    text = ctypes.create_string_buffer(96)
    length = _call[name](*arguments, text, len(text))
    return text.raw[:length].decode()


def version() -> str:
    """The version of the library."""
    return _text("version")


def peek_packet(packet: bytes) -> Optional[PacketHeader]:
    """Ports and verification tag of a packet, for a program with several peers at one socket; None if it is shorter than 12 bytes. Nothing else of
    the packet is checked, so it may be anyone's."""
    packet, source, destination, tag = _data(packet, "packet"), c_uint16(), c_uint16(), c_uint32()
    if _call["peek_packet"](packet, len(packet), byref(source), byref(destination), byref(tag)) != _OK:
        return None
    return PacketHeader(source.value, destination.value, tag.value)


def abort_cause(packet: bytes) -> Optional[AbortCause]:
    """What the first ABORT in a packet says, whoever sent it; None if the bytes aren't a valid packet with an ABORT."""
    packet, cause, length = _data(packet, "packet"), c_uint16(), c_size_t()
    room = (c_uint8 * len(packet))()
    if _call["abort_cause"](packet, len(packet), byref(cause), room, len(room), byref(length)) != _OK:
        return None
    return AbortCause(cause.value, string_at(room, length.value))


def key_derived(master: bytes, data: bytes) -> bytes:
    """A key derived from a secret master key of 32 bytes, which aren't all 0, and data that says what it is for, as the address that a packet was received
    from: HMAC-SHA-256 of the data under the master key (RFC 2104). Equal data gives equal keys."""
    data, key = _data(data, "data"), _Key()
    result = _call["key_derived"](byref(_key(master, "master")), data, len(data), byref(key))
    if result != _OK:
        raise Refused(Result(result))
    return bytes(key.bytes)


def _key(value, name: str) -> _Key:
    """A key of these 32 bytes."""
    data = _data(value, name)
    if len(data) != 32:
        raise ValueError(f"{name} has {len(data)} bytes, not 32")
    return _Key((c_uint8 * 32)(*data))


class _Association:
    """What an endpoint does, by itself or below data channels; what it holds is freed with it."""

    _call: Dict[str, Callable] = {}

    def __init__(self, handle: _Handle):
        """Not for users: the class methods make one."""
        self._handle = handle
        self._room = (c_uint8 * LONGEST_PACKET)()
        self._tickets = (c_uint64 * _MOST_TICKETS)()

    def __del__(self):
        self._call["free"](byref(self._handle))

    def _do(self, name: str, *arguments) -> None:
        result = self._call[name](byref(self._handle), *arguments)
        if result != _OK:
            raise Refused(Result(result))

    def connect(self, now: int, draw: Optional[Draw] = None) -> None:
        """Opens the association: the next packet is an INIT."""
        self._do("connect", _number(now, 64, "now"), byref(draw or Draw()))

    def handle_packet(self, now: int, packet: bytes, draw: Optional[Draw] = None) -> Verdict:
        """Processes a received packet. If memory allocation fails, the same packet may be passed again."""
        told, packet = _Verdict(), _data(packet, "packet")
        now = _number(now, 64, "now")
        self._do("handle_packet", now, packet, len(packet), byref(draw or Draw()), self._room, len(self._room), byref(told))
        answer = string_at(self._room, told.length) if told.verdict == 1 else None
        return Verdict(answer, Reason(told.reason) if told.verdict == 2 else None)

    def poll_transmit(self, now: int) -> Optional[Sent]:
        """The next packet to send, or None. It counts as sent: call this after every other call until it returns None."""
        told = _Sent()
        now = _number(now, 64, "now")
        self._do("poll_transmit", now, self._room, len(self._room), self._tickets, len(self._tickets), byref(told))
        if told.length == 0:
            return None
        return Sent(string_at(self._room, told.length), self._tickets[: told.tickets])

    def on_moment(self, now: int) -> None:
        """The current time: timers that are due expire, and messages whose lifetime is over are abandoned. Call it no later than `next_moment`
        of the status says, and at the earliest `until` of the messages sent. A time far in the future can't be taken back."""
        self._do("on_moment", _number(now, 64, "now"))

    def abandon(self, ticket: int) -> Fate:
        """Abandons a message, and returns what has become of it."""
        fate = c_uint32()
        self._do("abandon", _number(ticket, 64, "ticket"), byref(fate))
        return Fate(fate.value)

    def trim(self) -> None:
        """Gives back memory that a burst of messages took and that isn't used. It is for an endpoint that is idle: of one that has such bursts again and
        again each would allocate anew."""
        self._do("trim")

    def shutdown(self) -> None:
        """Closes gracefully: no more messages are accepted, those that were are still delivered. Once `ended` is COMPLETED, go on passing in
        received packets and sending the answers for some seconds: the last packet may have been lost."""
        self._do("shutdown")

    def abort(self, reason: bytes) -> bytes:
        """Ends the association at once, and returns the packet that says so to the peer."""
        length, reason = c_size_t(), _data(reason, "reason")
        self._do("abort", reason, len(reason), self._room, len(self._room), byref(length))
        return string_at(self._room, length.value)

    def status(self) -> Status:
        """Its state, counts and next time; sctp_endpoint.h says what each is."""
        told = _Status()
        self._do("status", byref(told))
        return Status(
            None if told.next_moment == _NEVER else told.next_moment,
            State(told.state),
            Ended(told.ended) if told.ended else None,
            told.tickets,
            told.outstanding,
            told.queued,
            told.queued_bytes,
            told.held_bytes,
            told.reassembly_bytes,
            told.peer_window,
            told.outbound,
            told.inbound,
            told.interleaved,
            told.partial,
            told.resetting,
            told.own_tag or None,
        )

    def own_tag(self) -> Optional[int]:
        """The verification tag that packets to it carry (`peek_packet`), by which a program with many peers at one socket finds the endpoint of a
        packet: a caller's from `connect` on, a listener's from the COOKIE ECHO on that establishes its association; None once that is over."""
        return self.status().own_tag

    def path(self) -> Path:
        """What it knows of the path to its peer: bytes in flight, RTO, round trips, congestion window."""
        told = _Path()
        self._do("path", byref(told))
        rto, trip, window = (bool(told.flags & flag) for flag in (1, 2, 4))
        return Path(
            told.in_flight,
            told.rto if rto else None,
            told.srtt if trip else None,
            told.rttvar if trip else None,
            told.cwnd if window else None,
            told.ssthresh if window else None,
        )

    def counts(self) -> Counts:
        """What it counted since it was made."""
        told = _Counts()
        self._do("counts", byref(told))
        return Counts(
            told.packets_out,
            told.bytes_out,
            told.packets_in,
            told.bytes_in,
            told.first_sent,
            told.timer_retransmitted,
            told.fast_retransmitted,
            told.sacks_out,
            told.sacks_in,
            told.abandoned,
            {
                Reason.FAULT: told.dropped_fault,
                Reason.PORTS: told.dropped_ports,
                Reason.TAG: told.dropped_tag,
                Reason.STATE: told.dropped_state,
                Reason.COOKIE: told.dropped_cookie,
            },
        )


class Endpoint(_Association):
    """One endpoint of an association; what it holds is freed with it."""

    _call = _call

    @classmethod
    def _made(cls, name: str, *arguments) -> "Endpoint":
        end = cls(_Handle())
        end._do(name, *arguments)
        return end

    @classmethod
    def caller(cls, config: Config) -> "Endpoint":
        """An endpoint that opens the association, by `connect`."""
        return cls._made("caller", byref(config))

    @classmethod
    def listener(cls, config: Config, key: bytes) -> "Endpoint":
        """An endpoint that waits for a peer. The key, 32 secret random bytes that aren't all 0, authenticates its state cookies. With many peers at one
        socket each address has a key of its own: `key_derived`."""
        return cls._made("listener", byref(config), byref(_key(key, "key")))

    @classmethod
    def opened(cls, config: Config, own: Draw, peer: Draw) -> "Endpoint":
        """An endpoint that is established at once, without packets; its peer is opened with `own` and `peer` exchanged."""
        return cls._made("opened", byref(config), byref(own), byref(peer))

    def send(self, stream: int, data: bytes, ordered: bool = True, payload_id: int = 0, until: Optional[int] = None,
             max_retransmits: Optional[int] = None) -> int:
        """Queues a message, and returns its ticket. `until` is the time at which its lifetime is over and it is abandoned, by the next
        `on_moment`: lifetimes aren't part of `next_moment`. With `max_retransmits` it is abandoned as soon as a fragment of it, which was
        retransmitted so many times already, would be retransmitted once more. Both count only if both endpoints use partial reliability."""
        ticket, data = c_uint64(), _data(data, "data")
        until = _NEVER if until is None else _number(until, 64, "until")
        stream, payload_id = _number(stream, 16, "stream"), _number(payload_id, 32, "payload_id")
        message = stream, bool(ordered), payload_id, data, len(data), until
        if max_retransmits is None:
            self._do("send", *message, byref(ticket))
        else:
            self._do("send_with_max_retransmits", *message, _number(max_retransmits, 16, "max_retransmits"), byref(ticket))
        return ticket.value

    def readable(self, start: int = 0) -> Optional[int]:
        """The first stream, from `start` on, on which a message is ready, or None."""
        stream = c_uint16()
        if _call["readable"](byref(self._handle), _number(start, 16, "start"), byref(stream)) == _NOTHING:
            return None
        return stream.value

    def take(self, stream: int) -> Optional[Message]:
        """Takes the first message that is ready on a stream, or returns None."""
        told = _Message()
        if _call["peek"](byref(self._handle), _number(stream, 16, "stream"), byref(told)) == _NOTHING:
            return None
        room = (c_uint8 * told.length)()
        self._do("take", stream, byref(told), room, told.length)
        return Message(told.stream, told.ordered, told.number if told.numbered else None, told.payload_id, string_at(room, told.length))

    def _asked(self, name: str, ticket: int) -> bool:
        answer = c_bool()
        self._do(name, _number(ticket, 64, "ticket"), byref(answer))
        return answer.value

    def acknowledged(self, ticket: int) -> bool:
        """Whether the peer has acknowledged all of a message that wasn't abandoned."""
        return self._asked("acknowledged", ticket)

    def abandoned(self, ticket: int) -> bool:
        """Whether a message was sent, at least in part, and then abandoned."""
        return self._asked("abandoned", ticket)

    def reset(self, stream: int) -> None:
        """Asks for the reset of an outgoing stream: from now on `send` refuses its messages. Once all that was sent on it is acknowledged, the peer
        is asked to reset it; once the peer has done so, the stream takes messages again, whose numbers on the wire begin anew at 0. If the
        peer refuses, it takes none until this is called again. Both endpoints must have been configured with `stream_reset`."""
        self._do("reset", _number(stream, 16, "stream"))

    def resetting(self, stream: int) -> bool:
        """Whether the reset of an outgoing stream was asked for and isn't done: false also if the peer refused it."""
        answer = c_bool()
        self._do("resetting", _number(stream, 16, "stream"), byref(answer))
        return answer.value

    def take_reset(self) -> Optional[Reset]:
        """A reset by the peer, of the lowest stream of which one wasn't reported; None if there is none."""
        stream, earlier = c_uint16(), c_uint64()
        if _call["take_reset"](byref(self._handle), byref(stream), byref(earlier)) == _NOTHING:
            return None
        return Reset(stream.value, earlier.value)
