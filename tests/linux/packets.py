"""SCTP packets as these trials read and print them, and the bytes of numbered messages."""

import struct

DATA, INIT, INIT_ACK, SACK, HEARTBEAT, HEARTBEAT_ACK, ABORT, SHUTDOWN, COOKIE_ECHO = 0, 1, 2, 3, 4, 5, 6, 7, 10
I_DATA, RE_CONFIG, FORWARD_TSN, I_FORWARD_TSN = 64, 130, 192, 194
NAMES = {DATA: 'DATA', INIT: 'INIT', INIT_ACK: 'INIT-ACK', SACK: 'SACK', HEARTBEAT: 'HEARTBEAT', HEARTBEAT_ACK: 'HEARTBEAT-ACK', ABORT: 'ABORT',
         SHUTDOWN: 'SHUTDOWN', 8: 'SHUTDOWN-ACK', 9: 'ERROR', COOKIE_ECHO: 'COOKIE-ECHO', 11: 'COOKIE-ACK', 14: 'SHUTDOWN-COMPLETE', I_DATA: 'I-DATA',
         RE_CONFIG: 'RE-CONFIG', FORWARD_TSN: 'FORWARD-TSN', I_FORWARD_TSN: 'I-FORWARD-TSN'}
LAST, FIRST, UNORDERED = 1, 2, 4                        # flags of DATA
OUTGOING_RESET, RESPONSE = 13, 16                       # parameters of RE-CONFIG
HEADER, HEAD = 12, 4                                    # bytes


def tlvs(data, at, of_type):
    """(type, flags, value) of each chunk, or of each parameter, from a place on."""
    found = []
    while at + HEAD <= len(data):
        kind, length = of_type(data, at), struct.unpack_from('>H', data, at + 2)[0]
        if length < HEAD:
            break
        found.append((kind, data[at + 1], data[at + HEAD:at + length]))
        at += (length + 3) & ~3
    return found


def chunks(packet):
    return tlvs(packet, HEADER, lambda data, at: data[at])


def parameters(value, at=0):
    """Those of a RE-CONFIG, or from a place on those of an INIT."""
    return [(kind, text) for kind, _, text in tlvs(value, at, lambda data, at: struct.unpack_from('>H', data, at)[0])]


def has(packet, kind):
    return any(it == kind for it, _, _ in chunks(packet))


class Piece:
    """A DATA or I-DATA chunk."""

    def __init__(self, kind, flags, value):
        self.tsn, self.stream = struct.unpack_from('>IH', value)
        self.interleaved, self.flags = kind == I_DATA, flags
        self.number = struct.unpack_from('>I', value, 8)[0] if self.interleaved else struct.unpack_from('>H', value, 6)[0]
        self.fragment = 0 if not self.interleaved or flags & FIRST else struct.unpack_from('>I', value, 12)[0]
        self.length = len(value) - (16 if self.interleaved else 12)

    def __str__(self):
        marks = ''.join(mark for bit, mark in ((UNORDERED, 'U'), (FIRST, 'B'), (LAST, 'E')) if self.flags & bit)
        return '%d stream %d number %d %s %d bytes' % (self.tsn, self.stream, self.number, marks, self.length)


def pieces(packet):
    return [Piece(*chunk) for chunk in chunks(packet) if chunk[0] in (DATA, I_DATA)]


def asked(packet):
    """The sequence numbers of the requests to reset streams in a packet (RFC 6525, 4.1)."""
    return [struct.unpack_from('>I', value)[0] for kind, _, text in chunks(packet) if kind == RE_CONFIG
            for parameter, value in parameters(text) if parameter == OUTGOING_RESET]


def answered(packet):
    """(sequence number, result) of each response in a packet (RFC 6525, 4.4)."""
    return [struct.unpack_from('>II', value) for kind, _, text in chunks(packet) if kind == RE_CONFIG
            for parameter, value in parameters(text) if parameter == RESPONSE]


def printed(packet):
    """A packet as words."""
    words = []
    for kind, flags, value in chunks(packet):
        name = NAMES.get(kind, 'type %d' % kind)
        if kind in (DATA, I_DATA):
            name += ' (%s)' % Piece(kind, flags, value)
        elif kind == SACK:
            cumulative, window, gaps, _ = struct.unpack_from('>IIHH', value)
            blocks = ['%d-%d' % struct.unpack_from('>HH', value, 12 + 4 * n) for n in range(gaps)]
            name += ' (%s)' % ' '.join([str(cumulative), 'window %d' % window] + blocks)
        elif kind in (INIT, INIT_ACK):
            listed = ' '.join('%04x' % parameter for parameter, _ in parameters(value, 16))
            name += ' (tag %x window %d streams %d %d TSN %d' % struct.unpack_from('>IIHHI', value) + ' %s)' % listed
        elif kind in (ABORT, SHUTDOWN, 9, RE_CONFIG, FORWARD_TSN, I_FORWARD_TSN):
            name += ' (%s)' % value.hex()
        words.append(name)
    return ', '.join(words)


def body(number, length):
    """The bytes of a message, as socket.c has them."""
    whole = (bytes((31 * number + 7 * at) % 256 for at in range(256)) * (length // 256 + 1))[:length]
    return struct.pack('>II', number, length) + whole[8:] if length >= 8 else whole
