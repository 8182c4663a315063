"""Bytes: wrapped numbers, packets, chunks, parameters, causes, the cookie.

A model written from the RFCs alone, to be read beside them. Bytes are bytes
objects, numbers are unbounded, nothing here keeps a state.
"""

import hashlib
import hmac
import struct

# Chunk types (RFC 9260 section 3.2, RFC 3758 section 3.2, RFC 8260 section 2).
DATA, INIT, INIT_ACK, SACK, HEARTBEAT, HEARTBEAT_ACK, ABORT = 0, 1, 2, 3, 4, 5, 6
SHUTDOWN, SHUTDOWN_ACK, ERROR, COOKIE_ECHO, COOKIE_ACK = 7, 8, 9, 10, 11
SHUTDOWN_COMPLETE, I_DATA, FORWARD_TSN, I_FORWARD_TSN = 14, 64, 192, 194
KNOWN = {DATA, INIT, INIT_ACK, SACK, HEARTBEAT, HEARTBEAT_ACK, ABORT, SHUTDOWN,
         SHUTDOWN_ACK, ERROR, COOKIE_ECHO, COOKIE_ACK, SHUTDOWN_COMPLETE, I_DATA,
         FORWARD_TSN, I_FORWARD_TSN}

# RE-CONFIG (RFC 6525 section 3.1): an unknown type where it wasn't agreed on. Its parameters (sections 4.1 to 4.6).
RE_CONFIG = 130
OUTGOING_RESET, INCOMING_RESET, TSN_RESET, RECONFIG_RESPONSE, ADD_OUTGOING, ADD_INCOMING = 13, 14, 15, 16, 17, 18

# Flags of DATA and I-DATA (RFC 9260 section 3.3.1), flag T of ABORT and
# SHUTDOWN COMPLETE (sections 3.3.7 and 3.3.13).
FLAG_I, FLAG_U, FLAG_B, FLAG_E, FLAG_T = 8, 4, 2, 1, 1

# Parameters (RFC 9260 section 3.3.3, RFC 5061, RFC 3758 section 3.1).
STATE_COOKIE, UNRECOGNIZED, SUPPORTED_EXTENSIONS, FORWARD_SUPPORTED = 7, 8, 0x8008, 0xC000
# Zero Checksum Acceptable, and its value where DTLS is below (RFC 9653 section 4).
ZERO_CHECKSUM, OVER_DTLS = 0x8001, bytes((0, 0, 0, 1))
# Addresses, Cookie Preservative, host name, address types: no part of this profile.
SILENT_PARAMETERS = {5, 6, 9, 11, 12}

# Causes (RFC 9260 section 3.3.10).
INVALID_STREAM, MISSING_PARAMETER, STALE_COOKIE, OUT_OF_RESOURCE = 1, 2, 3, 4
UNRECOGNIZED_CHUNK, INVALID_PARAMETER, UNRECOGNIZED_PARAMETERS = 6, 7, 8
NO_USER_DATA, USER_ABORT, PROTOCOL_VIOLATION = 9, 12, 13

# Faults of a chunk list.
CUT, LENGTH_TOO_SMALL, PADDING_MISSING, CHUNK_BODY, PARAMETER_LENGTH, NOT_ALONE = 1, 2, 3, 4, 5, 6
# Faults of a packet.
SHORT, CHECKSUM, WIRE, NO_CHUNK = 1, 2, 3, 4

HEADER = 12
COUNT_END = 2**64 - 1      # counts and indexes stay below this number


class Widths:
    """How many bits TSNs, SSNs and MIDs have, and the limits that go by it; all modules read WIDTHS."""

    def __init__(self, tsn, ssn, mid):
        self.set(tsn, ssn, mid)

    def set(self, tsn, ssn, mid):
        self.tsn, self.ssn, self.mid = tsn, ssn, mid
        # How many TSNs are outstanding at most, and how far ahead of it a receiver takes one: with the
        # RFCs' widths 32,767. The SSNs of so many messages are told apart.
        self.window = 2**(ssn - 1) - 1
        # Of a packet that comes before so many more TSNs were assigned in either direction since it was
        # built each TSN is read as it was meant: with the RFCs' widths 2^31 - 65,536.
        self.age = 2**(tsn - 1) - 2 * (self.window + 1)


WIDTHS = Widths(32, 16, 32)


class Fault(Exception):
    """A packet or chunk list that can't be read: kind, then the kind and offset of its chunk."""


# ---- Wrapped numbers (RFC 9260 section 1.6, RFC 1982) ----

def before(a, b, width):
    """a comes before b: the way from a to b is in 1 .. half the space - 1."""
    return 1 <= (b - a) % 2**width <= 2**(width - 1) - 1


def near(wire, reference, width):
    """The count with this wire value less than half the space from the reference, or None."""
    base = reference - reference % 2**width + wire
    for count in (base - 2**width, base, base + 2**width):
        if abs(count - reference) < 2**(width - 1) and 0 <= count <= COUNT_END:
            return count
    return None


# ---- The checksum (RFC 9260 section 6.8 and appendix A) ----

def _crc_table():
    table = []
    for byte in range(256):
        rest = byte
        for _ in range(8):
            rest = (rest >> 1) ^ (0x82F63B78 if rest & 1 else 0)
        table.append(rest)
    return table


CRC_TABLE = _crc_table()


def crc32c(data):
    rest = 0xFFFFFFFF
    for byte in data:
        rest = (rest >> 8) ^ CRC_TABLE[(rest ^ byte) & 0xFF]
    return rest ^ 0xFFFFFFFF


# ---- Writing (RFC 9260 section 3) ----

def padded(length):
    return (length + 3) // 4 * 4


def pad(data):
    return data + bytes(padded(len(data)) - len(data))


def item(kind, value=b''):
    """A parameter or a cause without its padding (sections 3.2.1 and 3.3.10)."""
    return struct.pack('>HH', kind, 4 + len(value)) + value


def item_list(items):
    """Items one after the other; the padding of the last one isn't counted (section 3.2.1)."""
    return b''.join(pad(i) for i in items[:-1]) + (items[-1] if items else b'')


def chunk(kind, value=b'', flags=0):
    """A chunk with its padding (section 3.2)."""
    return pad(struct.pack('>BBH', kind, flags, 4 + len(value)) + value)


def packet(source, destination, tag, chunks, zero=False):
    """Common header and chunks, with the checksum made (section 3.1), or with 0 in its place (RFC 9653)."""
    body = b''.join(chunks)
    start = struct.pack('>HHI', source, destination, tag)
    return start + struct.pack('<I', 0 if zero else crc32c(start + bytes(4) + body)) + body


def with_checksum(data):
    """The same bytes with a right checksum."""
    return data[:8] + struct.pack('<I', crc32c(data[:8] + bytes(4) + data[12:])) + data[12:]


def init_value(tag, rwnd, outbound, inbound, tsn, parameters):
    """The value of INIT and INIT ACK (sections 3.3.2 and 3.3.3)."""
    return struct.pack('>IIHHI', tag, rwnd, outbound, inbound, tsn) + item_list(parameters)


def data_chunk(interleave, flags, tsn, stream, number, word, data):
    """DATA (RFC 9260 section 3.3.1) or I-DATA (RFC 8260 section 2.1)."""
    if interleave:
        return chunk(I_DATA, struct.pack('>IHHII', tsn, stream, 0, number, word) + data, flags)
    return chunk(DATA, struct.pack('>IHHI', tsn, stream, number, word) + data, flags)


def sack_chunk(cumulative, rwnd, blocks, duplicates):
    """SACK (RFC 9260 section 3.3.4)."""
    value = struct.pack('>IIHH', cumulative, rwnd, len(blocks), len(duplicates))
    value += b''.join(struct.pack('>HH', *block) for block in blocks)
    return chunk(SACK, value + b''.join(struct.pack('>I', tsn) for tsn in duplicates))


def forward_chunk(interleave, cumulative, skips):
    """FORWARD-TSN (RFC 3758 section 3.2) or I-FORWARD-TSN (RFC 8260 section 2.3.1)."""
    value = struct.pack('>I', cumulative)
    for stream, unordered, number in skips:
        if interleave:
            value += struct.pack('>HHI', stream, 1 if unordered else 0, number)
        else:
            value += struct.pack('>HH', stream, number)
    return chunk(I_FORWARD_TSN if interleave else FORWARD_TSN, value)


def reset_request(number, answered, last, streams):
    """Outgoing SSN Reset Request (RFC 6525 section 4.1); `answered`: the Response Sequence Number."""
    return item(OUTGOING_RESET, struct.pack('>III%dH' % len(streams), number, answered, last, *streams))


def reset_response(number, result):
    """Re-configuration Response (RFC 6525 section 4.4), without the TSNs of a TSN reset."""
    return item(RECONFIG_RESPONSE, struct.pack('>II', number, result))


def reconfig_chunk(parameters):
    """RE-CONFIG (RFC 6525 section 3.1)."""
    return chunk(RE_CONFIG, item_list(parameters))


# ---- Reading ----

class Chunk:
    """One chunk as it was read: its type, flags, value, and its bytes without the padding."""

    def __init__(self, raw):
        self.kind, self.flags, _ = struct.unpack('>BBH', raw[:4])
        self.raw, self.value = raw, raw[4:]

    @property
    def t(self):
        return bool(self.flags & FLAG_T)


def read_items(data):
    """A list of parameters or causes as (type, item without padding), or None (section 3.2.1).

    After an item either nothing is left, or at least its padding and then a list.
    """
    items, at = [], 0
    while at < len(data):
        left = len(data) - at
        if left < 4:
            return None
        kind, length = struct.unpack('>HH', data[at:at + 4])
        if length < 4 or length > left:
            return None
        if length != left and padded(length) > left:
            return None
        items.append((kind, data[at:at + length]))
        at += padded(length)
    return items


def body_fits(kind, length, value):
    """The length is one of this type's layout (sections 3.3, RFC 3758 3.2, RFC 8260 2)."""
    if kind == SACK:
        return length >= 16 and length == 16 + 4 * sum(struct.unpack('>HH', value[8:12]))
    if kind == SHUTDOWN:
        return length == 8
    if kind in (SHUTDOWN_ACK, COOKIE_ACK, SHUTDOWN_COMPLETE):
        return length == 4
    if kind == FORWARD_TSN:
        return length >= 8 and (length - 8) % 4 == 0
    if kind == I_FORWARD_TSN:
        return length >= 8 and (length - 8) % 8 == 0
    return length >= {DATA: 16, INIT: 20, INIT_ACK: 20, I_DATA: 20}.get(kind, 4)


def item_part(found):
    """The parameter or cause list of a chunk, None where it has none."""
    if found.kind in (INIT, INIT_ACK):
        return found.value[16:]
    if found.kind in (ABORT, ERROR):
        return found.value
    return None


def read_chunk(data, at):
    """The chunk at this offset and the offset after it (RFC 9260 section 3.2)."""
    left = len(data) - at
    if left < 4:
        raise Fault(CUT, at)
    kind, _, length = struct.unpack('>BBH', data[at:at + 4])
    if length < 4:
        raise Fault(LENGTH_TOO_SMALL, at)
    if length > left:
        raise Fault(CUT, at)
    if padded(length) > left:
        raise Fault(PADDING_MISSING, at)
    found = Chunk(data[at:at + length])
    if not body_fits(kind, length, found.value):
        raise Fault(CHUNK_BODY, at)
    part = item_part(found)
    if part is not None and read_items(part) is None:
        raise Fault(PARAMETER_LENGTH, at)
    return found, at + padded(length)


def read_chunks(data, at=0):
    """All chunks of the bytes from this offset on; the first fault counts."""
    chunks, offsets = [], []
    while at < len(data):
        offsets.append(at)
        found, at = read_chunk(data, at)
        chunks.append(found)
    # INIT, INIT ACK and SHUTDOWN COMPLETE stand alone, COOKIE ECHO first (sections 3.3, 5.1, 6.10).
    for place, found in enumerate(chunks):
        alone = found.kind in (INIT, INIT_ACK, SHUTDOWN_COMPLETE)
        if alone and len(chunks) > 1 or found.kind == COOKIE_ECHO and place > 0:
            raise Fault(NOT_ALONE, offsets[place])
    return chunks


class Packet:
    """A packet that was read: ports, tag, chunks (section 3.1). `zero`: the checksum may be 0 (RFC 9653)."""

    def __init__(self, data, zero=False):
        if len(data) < HEADER:
            raise Fault(SHORT)
        self.source, self.destination, self.tag = struct.unpack('>HHI', data[:8])
        if data != with_checksum(data) and not (zero and data[8:12] == bytes(4)):
            raise Fault(CHECKSUM)
        if len(data) == HEADER:
            raise Fault(NO_CHUNK)
        try:
            self.chunks = read_chunks(data, HEADER)
        except Fault as fault:
            raise Fault(WIRE, *fault.args) from None


class Piece:
    """A DATA or I-DATA chunk (RFC 9260 section 3.3.1, RFC 8260 section 2.1)."""

    def __init__(self, found):
        self.interleave = found.kind == I_DATA
        self.immediate, self.unordered = bool(found.flags & FLAG_I), bool(found.flags & FLAG_U)
        self.first, self.last = bool(found.flags & FLAG_B), bool(found.flags & FLAG_E)
        if self.interleave:
            self.tsn, self.stream, _, self.number, self.word = struct.unpack('>IHHII', found.value[:16])
            self.data = found.value[16:]
        else:
            self.tsn, self.stream, self.number, self.word = struct.unpack('>IHHI', found.value[:12])
            self.data = found.value[12:]


class Sack:
    """A SACK (RFC 9260 section 3.3.4)."""

    def __init__(self, found):
        self.cumulative, self.rwnd, blocks, duplicates = struct.unpack('>IIHH', found.value[:12])
        words = struct.unpack('>%dH' % (2 * blocks), found.value[12:12 + 4 * blocks])
        self.blocks = list(zip(words[::2], words[1::2]))
        self.duplicates = list(struct.unpack('>%dI' % duplicates, found.value[12 + 4 * blocks:]))


class Forward:
    """A FORWARD-TSN (RFC 3758 section 3.2) or I-FORWARD-TSN (RFC 8260 section 2.3.1)."""

    def __init__(self, found):
        self.interleave = found.kind == I_FORWARD_TSN
        self.cumulative, = struct.unpack('>I', found.value[:4])
        rest, self.skips = found.value[4:], []
        for at in range(0, len(rest), 8 if self.interleave else 4):
            if self.interleave:
                stream, flags, number = struct.unpack('>HHI', rest[at:at + 8])
                self.skips.append((stream, bool(flags & 1), number))
            else:
                stream, number = struct.unpack('>HH', rest[at:at + 4])
                self.skips.append((stream, False, number))


class ResetRequest:
    """The value of an Outgoing SSN Reset Request (RFC 6525 section 4.1)."""

    def __init__(self, value):
        self.number, _, self.last = struct.unpack('>III', value[:12])
        count = (len(value) - 12) // 2
        self.streams = list(struct.unpack('>%dH' % count, value[12:12 + 2 * count]))


class Opening:
    """An INIT or INIT ACK (sections 3.3.2, 3.3.3), its unknown parameters told apart (3.2.1)."""

    def __init__(self, found):
        self.tag, self.rwnd, self.outbound, self.inbound, self.tsn = struct.unpack('>IIHHI', found.value[:16])
        self.cookie, self.extensions, self.partial, self.reports = None, None, False, []
        self.zero_checksum = None
        for kind, whole in read_items(found.value[16:]):
            if kind == STATE_COOKIE:
                self.cookie = whole[4:] if self.cookie is None else self.cookie
            elif kind == SUPPORTED_EXTENSIONS:
                self.extensions = whole[4:] if self.extensions is None else self.extensions
            elif kind == FORWARD_SUPPORTED:
                self.partial = True
            elif kind == ZERO_CHECKSUM:
                self.zero_checksum = whole[4:] if self.zero_checksum is None else self.zero_checksum
            elif kind != UNRECOGNIZED and kind not in SILENT_PARAMETERS:
                stop, report = unknown_rule(kind >> 14)
                if report:
                    self.reports.append(whole)
                if stop:
                    break

    def lists(self, kind):
        return self.extensions is not None and kind in self.extensions

    @property
    def no_streams(self):
        return self.outbound == 0 or self.inbound == 0


def unknown_rule(two_bits):
    """What the two highest bits of an unknown type ask: (stop, report) (sections 3.2 and 3.2.1)."""
    return {0: (True, False), 1: (True, True), 2: (False, False), 3: (False, True)}[two_bits]


# ---- The cookie (RFC 9260 sections 5.1.3 and 5.1.5; RFC 2104) ----

FORM, MAC, PORTS, TAG, STALE = 1, 2, 3, 4, 5
COOKIE_LIFE = 60_000
COOKIE_LAYOUT = '>QHHIIIIIHHB3s'
# Its options.
PARTIAL, INTERLEAVE, RESET, ZERO = 1, 2, 4, 8


class Cookie:
    """What a listener must know again: it keeps nothing else of an INIT."""

    FIELDS = ('made', 'own_port', 'peer_port', 'own_tag', 'peer_tag', 'own_tsn', 'peer_tsn',
              'peer_rwnd', 'outbound', 'inbound', 'options')

    def __init__(self, *values):
        for name, value in zip(self.FIELDS, values):
            setattr(self, name, value)

    def seal(self, key):
        values = [getattr(self, name) for name in self.FIELDS]
        body = struct.pack(COOKIE_LAYOUT, *values, bytes(3))
        return body + hmac.new(key, body, hashlib.sha256).digest()


def open_cookie(key, data, now, ports, tag):
    """The cookie, its fault (0 for none) and its staleness in microseconds, in the order of 5.1.5."""
    if len(data) != 72 or data[36] > PARTIAL | INTERLEAVE | RESET | ZERO or data[37:40] != bytes(3):
        return None, FORM, 0
    if hmac.new(key, data[:40], hashlib.sha256).digest() != data[40:]:
        return None, MAC, 0
    cookie = Cookie(*struct.unpack(COOKIE_LAYOUT, data[:40])[:-1])
    if (cookie.own_port, cookie.peer_port) != ports:
        return cookie, PORTS, 0
    if cookie.own_tag != tag:
        return cookie, TAG, 0
    over = max(now - cookie.made, 0) - COOKIE_LIFE
    if over > 0:
        return cookie, STALE, min(over * 1000, 2**32 - 1)
    return cookie, 0, 0
