"""What is said on data channels: messages of DCEP (RFC 8832, 5), and contents (RFC 8831, 6.6 and 8)."""

import struct

DCEP, STRING, BINARY, STRING_EMPTY, BINARY_EMPTY = 50, 51, 53, 56, 57
ACK, OPEN = 2, 3
UNORDERED = 0x80
RELIABLE, REXMIT, TIMED = 0, 1, 2

UNKNOWN_MESSAGE = 'neither DATA_CHANNEL_OPEN nor DATA_CHANNEL_ACK'
CUT_SHORT = 'DATA_CHANNEL_OPEN is cut short'
ACK_WITH_MORE = 'DATA_CHANNEL_ACK has more than one byte'
UNKNOWN_TYPE = 'unknown channel type'


class Opening:
    """The parameters of a channel (RFC 8832, 5.1). `kind`: RELIABLE, REXMIT or TIMED, with its value."""

    def __init__(self, ordered, kind, value, priority, label, protocol):
        self.ordered, self.kind, self.value, self.priority = ordered, kind, value, priority
        self.label, self.protocol = label, protocol

    def written(self):
        channel_type = self.kind + (0 if self.ordered else UNORDERED)
        fields = struct.pack('>BBHIHH', OPEN, channel_type, self.priority, self.value, len(self.label), len(self.protocol))
        return fields + self.label + self.protocol


class Bad(Exception):
    """A message of DCEP that is none; the text of its fault."""


def read_control(data):
    """'ack', or an Opening; Bad for another one. An OPEN that isn't complete has no type that counts."""
    if data[:1] == bytes([ACK]):
        if len(data) > 1:
            raise Bad(ACK_WITH_MORE)
        return 'ack'
    if data[:1] != bytes([OPEN]):
        raise Bad(UNKNOWN_MESSAGE)
    if len(data) < 12:
        raise Bad(CUT_SHORT)
    _, channel_type, priority, value, label, protocol = struct.unpack('>BBHIHH', data[:12])
    if len(data) < 12 + label + protocol:
        raise Bad(CUT_SHORT)
    if channel_type & ~UNORDERED not in (RELIABLE, REXMIT, TIMED):
        raise Bad(UNKNOWN_TYPE)
    ordered, kind = not channel_type & UNORDERED, channel_type & ~UNORDERED
    return Opening(ordered, kind, 0 if kind == RELIABLE else value, priority,
                   data[12:12 + label], data[12 + label:12 + label + protocol])


def sent_as(text, data):
    """(payload protocol identifier, user data): no message of SCTP is empty (RFC 8831, 6.6)."""
    if data:
        return (STRING if text else BINARY), data
    return (STRING_EMPTY if text else BINARY_EMPTY), b'\0'


def content(payload_id, data):
    """(text, bytes), or None for what is no content: partial messages, too, which are deprecated (RFC 8831, 6.6)."""
    return {STRING: (True, data), BINARY: (False, data), STRING_EMPTY: (True, b''), BINARY_EMPTY: (False, b'')}.get(payload_id)
