"""Data channels (RFC 8831) and their establishment (RFC 8832) over one endpoint, by ctypes over libsctp_endpoint.so: what a browser's RTCDataChannel
does. `sctp_endpoint` has what is common to both, and says what holds for all calls; DTLS and ICE, which carry the packets of a browser, are the program's.

    channels = Channels(Endpoint.listener(Config.for_data_channels(), key), is_dtls_client=False)
    ...
    channels.handle_packet(now, packet)
    for event in channels.events():
        if isinstance(event, MessageReceived):
            channels.send(now, event.stream, event.content)

A channel is known by its stream. The DTLS client opens channels on even streams, the server on odd ones.
"""

import enum
from ctypes import POINTER, Structure, byref, c_bool, c_char_p, c_size_t, c_uint8, c_uint16, c_uint32, c_uint64, string_at
from dataclasses import dataclass
from typing import Iterator, Optional, Union

from sctp_endpoint import (
    Draw,
    Endpoint,
    Refused,
    Result,
    _Association,
    _Counts,
    _data,
    _Handle,
    _number,
    _Path,
    _Sent,
    _Status,
    _Verdict,
    _bind,
)

ANY_STREAM = 65535


class Kind(enum.IntEnum):
    INCOMING = 1
    OPENED = 2
    MESSAGE = 3
    CLOSED = 4
    REFUSED = 5
    IGNORED = 6
    BUFFERED_AMOUNT_LOW = 7


class ChannelReason(enum.IntEnum):
    """Why the peer was refused or ignored; sctp_channels.h says what each is."""

    UNKNOWN_MESSAGE = 1
    OPEN_CUT_SHORT = 2
    ACK_WITH_MORE = 3
    UNKNOWN_TYPE = 4
    WRONG_HALF = 5
    NO_WAY_BACK = 6
    NO_CHANNEL = 7
    OPEN_AGAIN = 8
    STRAY_ACK = 9
    LATE_ACK = 10
    OTHER_PAYLOAD = 11
    CLOSING = 12
    WAS_REFUSED = 13


class _ChannelParameters(Structure):
    _fields_ = [
        ("limit", c_uint32),
        ("priority", c_uint16),
        ("reliability", c_uint8),
        ("ordered", c_bool),
        ("_reserved", c_uint32 * 2),
    ]


class _ChannelEvent(Structure):
    _fields_ = [
        ("length", c_size_t),
        ("label_length", c_size_t),
        ("reason", c_uint32),
        ("limit", c_uint32),
        ("priority", c_uint16),
        ("reliability", c_uint8),
        ("ordered", c_bool),
        ("stream", c_uint16),
        ("kind", c_uint8),
        ("text", c_bool),
        ("_reserved", c_uint32 * 2),
    ]


@dataclass(frozen=True)
class Incoming:
    """The peer opened a channel. It is open."""

    stream: int
    label: str
    protocol: str
    ordered: bool
    max_retransmits: Optional[int]
    max_packet_lifetime: Optional[int]
    priority: int


@dataclass(frozen=True)
class Opened:
    """A channel that was opened here is open at the peer, too."""

    stream: int


@dataclass(frozen=True)
class MessageReceived:
    """A message of the peer: text as str, binary data as bytes. Bytes that aren't UTF-8 are U+FFFD in text."""

    stream: int
    content: Union[str, bytes]


@dataclass(frozen=True)
class Closed:
    """A channel that was opened here or incoming is closed both ways, or the association is over. Another one may be opened on its stream."""

    stream: int


@dataclass(frozen=True)
class RefusedOpening:
    """The peer began what opens no channel. The stream is reset, and what else the peer sends on it is ignored until it resets it, too. No `Closed` follows."""

    stream: int
    reason: ChannelReason


@dataclass(frozen=True)
class Ignored:
    """A message of the peer is ignored."""

    stream: int
    reason: ChannelReason


@dataclass(frozen=True)
class BufferedAmountLow:
    """The buffered amount of a channel was above its threshold, and is at most that now."""

    stream: int


Event = Union[Incoming, Opened, MessageReceived, Closed, RefusedOpening, Ignored, BufferedAmountLow]

_channels, _bytes, _u64s, _end = POINTER(_Handle), POINTER(c_uint8), POINTER(c_uint64), POINTER(_Handle)
_calls = {
    "over": (_channels, _end, c_bool),
    "free": (_channels,),
    "open": (_channels, POINTER(_ChannelParameters), c_char_p, c_size_t, c_char_p, c_size_t, c_uint16, POINTER(c_uint16)),
    "open_negotiated": (_channels, POINTER(_ChannelParameters), c_uint16),
    "send": (_channels, c_uint64, c_uint16, c_bool, c_char_p, c_size_t, POINTER(c_uint64)),
    "close": (_channels, c_uint16),
    "abandon": (_channels, c_uint64, POINTER(c_uint32)),
    "buffered_amount": (_channels, c_uint16, POINTER(c_uint64)),
    "set_buffered_amount_low_threshold": (_channels, c_uint16, c_uint32),
    "max_message_size": (_channels, POINTER(c_uint32)),
    "next_event": (_channels, POINTER(_ChannelEvent), _bytes, c_size_t),
    "connect": (_channels, c_uint64, POINTER(Draw)),
    "handle_packet": (_channels, c_uint64, c_char_p, c_size_t, POINTER(Draw), _bytes, c_size_t, POINTER(_Verdict)),
    "poll_transmit": (_channels, c_uint64, _bytes, c_size_t, _u64s, c_size_t, POINTER(_Sent)),
    "on_moment": (_channels, c_uint64),
    "trim": (_channels,),
    "shutdown": (_channels,),
    "abort": (_channels, c_char_p, c_size_t, _bytes, c_size_t, POINTER(c_size_t)),
    "status": (_channels, POINTER(_Status)),
    "path": (_channels, POINTER(_Path)),
    "counts": (_channels, POINTER(_Counts)),
}


def _parameters(ordered: bool, max_retransmits: Optional[int], max_packet_lifetime: Optional[int], priority: int) -> _ChannelParameters:
    if max_retransmits is not None and max_packet_lifetime is not None:
        raise ValueError("a channel has max_retransmits or max_packet_lifetime, not both")
    limits = ((1, max_retransmits, "max_retransmits"), (2, max_packet_lifetime, "max_packet_lifetime"))
    reliability, limit = next(((kind, _number(limit, 32, name)) for kind, limit, name in limits if limit is not None), (0, 0))
    return _ChannelParameters(limit, _number(priority, 16, "priority"), reliability, bool(ordered))


def _utf8(value: str, name: str) -> bytes:
    if not isinstance(value, str):
        raise TypeError(f"{name} is a str, not {type(value).__name__}")
    return value.encode()


class Channels(_Association):
    """The data channels of one endpoint, which they take over: the `Endpoint` can't be used afterwards."""

    _call = _bind("sctp_channels_", _calls)

    def __init__(self, endpoint: Endpoint, is_dtls_client: bool):
        """`is_dtls_client`: this side was the client in the DTLS handshake. Nothing was sent or taken on the endpoint yet: BAD_STATE if a message was
        sent, and the endpoint stays as it is."""
        super().__init__(_Handle())
        self._buffer = (c_uint8 * 65536)()
        self._do("over", byref(endpoint._handle), bool(is_dtls_client))

    def open(
        self,
        label: str,
        protocol: str = "",
        *,
        stream: Optional[int] = None,
        ordered: bool = True,
        max_retransmits: Optional[int] = None,
        max_packet_lifetime: Optional[int] = None,
        priority: int = 256,
    ) -> int:
        """Opens a channel on this stream, or on the lowest that is free of this side's, and returns its stream. Messages may be sent at once; `Opened` says
        that the peer has it, too. NOT_OPEN before the association is established. Lifetimes are milliseconds."""
        asked, opened = _parameters(ordered, max_retransmits, max_packet_lifetime, priority), c_uint16()
        label, protocol = _utf8(label, "label"), _utf8(protocol, "protocol")
        stream = ANY_STREAM if stream is None else _number(stream, 16, "stream")
        self._do("open", byref(asked), label, len(label), protocol, len(protocol), stream, byref(opened))
        return opened.value

    def open_negotiated(
        self,
        stream: int,
        *,
        ordered: bool = True,
        max_retransmits: Optional[int] = None,
        max_packet_lifetime: Optional[int] = None,
    ) -> None:
        """Opens a channel that both applications agreed on, on a stream of either half: `negotiated` and `id` of a browser. It is open at once."""
        asked = _parameters(ordered, max_retransmits, max_packet_lifetime, 256)
        self._do("open_negotiated", byref(asked), _number(stream, 16, "stream"))

    def send(self, now: int, stream: int, content: Union[str, bytes]) -> int:
        """Sends text, a str, or binary data, bytes; either may be empty. Returns its ticket, for `abandon`. `now` is the current time, from which the
        lifetime of a message counts."""
        text, ticket = isinstance(content, str), c_uint64()
        data = content.encode() if text else _data(content, "content")
        self._do("send", _number(now, 64, "now"), _number(stream, 16, "stream"), text, data, len(data), byref(ticket))
        return ticket.value

    def close(self, stream: int) -> None:
        """Closes a channel: what was sent on it is still delivered, what the peer sent before it noticed is still reported, and then `Closed`."""
        self._do("close", _number(stream, 16, "stream"))

    def buffered_amount(self, stream: int) -> int:
        """The bytes of user data that are queued on a stream: of messages of which no fragment was sent."""
        told = c_uint64()
        self._do("buffered_amount", _number(stream, 16, "stream"), byref(told))
        return told.value

    def set_buffered_amount_low_threshold(self, stream: int, size: int) -> None:
        """Sets the threshold, in bytes, at which `BufferedAmountLow` is reported of a channel. Without this call it has no such event."""
        self._do("set_buffered_amount_low_threshold", _number(stream, 16, "stream"), _number(size, 32, "size"))

    def max_message_size(self) -> int:
        """The longest message that the peer should send, in bytes, for the SDP (a=max-message-size)."""
        told = c_uint32()
        self._do("max_message_size", byref(told))
        return told.value

    def next_event(self) -> Optional[Event]:
        """Takes the next event, or returns None."""
        told = _ChannelEvent()
        result = self._call["next_event"](byref(self._handle), byref(told), self._buffer, len(self._buffer))
        if result == Result.NEEDS_ROOM:
            self._buffer = (c_uint8 * told.length)()
            result = self._call["next_event"](byref(self._handle), byref(told), self._buffer, len(self._buffer))
        if result == Result.NOTHING:
            return None
        if result != Result.OK:
            raise Refused(Result(result))
        return self._event(told)

    def events(self) -> Iterator[Event]:
        """Takes all events that there are: to be called after each packet."""
        while (event := self.next_event()) is not None:
            yield event

    def _event(self, told: _ChannelEvent) -> Event:
        stream, data = told.stream, string_at(self._buffer, told.length)
        if told.kind == Kind.INCOMING:
            label, protocol = data[: told.label_length], data[told.label_length :]
            return Incoming(
                stream,
                label.decode(errors="replace"),
                protocol.decode(errors="replace"),
                told.ordered,
                told.limit if told.reliability == 1 else None,
                told.limit if told.reliability == 2 else None,
                told.priority,
            )
        if told.kind == Kind.MESSAGE:
            return MessageReceived(stream, data.decode(errors="replace") if told.text else data)
        if told.kind in (Kind.REFUSED, Kind.IGNORED):
            return (RefusedOpening if told.kind == Kind.REFUSED else Ignored)(stream, ChannelReason(told.reason))
        return {Kind.OPENED: Opened, Kind.CLOSED: Closed, Kind.BUFFERED_AMOUNT_LOW: BufferedAmountLow}[told.kind](stream)
