"""The lines that `sctp-trace packet HEX` and `sctp-trace chunks HEX` print."""

import re
import struct

import wire
from wire import Forward, Opening, Packet, Piece, Sack

WORDS = {wire.INIT: 'INIT', wire.INIT_ACK: 'INIT-ACK', wire.HEARTBEAT: 'HEARTBEAT',
         wire.HEARTBEAT_ACK: 'HEARTBEAT-ACK', wire.SHUTDOWN_ACK: 'SHUTDOWN-ACK', wire.COOKIE_ACK: 'COOKIE-ACK'}


def hex_text(data):
    return data.hex() or '-'


def joined(words):
    return ','.join(str(word) for word in words) or '-'


def flags_text(flags):
    bits = ((wire.FLAG_I, 'I'), (wire.FLAG_U, 'U'), (wire.FLAG_B, 'B'), (wire.FLAG_E, 'E'))
    return ''.join(letter for bit, letter in bits if flags & bit) or '-'


def piece_line(found):
    piece = Piece(found)
    start = '%s %s tsn %d stream %d' % ('I-DATA' if piece.interleave else 'DATA', flags_text(found.flags),
                                        piece.tsn, piece.stream)
    number = 'mid' if piece.interleave else 'ssn'
    word = 'fsn' if piece.interleave and not piece.first else 'id'
    return '%s %s %d %s %d data %s' % (start, number, piece.number, word, piece.word, hex_text(piece.data))


def opening_line(found):
    opening = Opening(found)
    return '%s tag %08x rwnd %d out %d in %d tsn %d params %d' % (
        WORDS[found.kind], opening.tag, opening.rwnd, opening.outbound, opening.inbound, opening.tsn,
        len(wire.read_items(found.value[16:])))


def sack_line(found):
    sack = Sack(found)
    return 'SACK cum %d rwnd %d blocks %s dups %s' % (
        sack.cumulative, sack.rwnd, joined('%d-%d' % block for block in sack.blocks), joined(sack.duplicates))


def forward_line(found):
    forward = Forward(found)
    if forward.interleave:
        skips = ('%d:%s:%d' % (s, 'u' if u else 'o', n) for s, u, n in forward.skips)
        return 'I-FORWARD-TSN cum %d skips %s' % (forward.cumulative, joined(skips))
    skips = ('%d:%d' % (s, n) for s, _, n in forward.skips)
    return 'FORWARD-TSN cum %d skips %s' % (forward.cumulative, joined(skips))


def chunk_line(found):
    kind = found.kind
    if kind in (wire.DATA, wire.I_DATA):
        return piece_line(found)
    if kind in (wire.INIT, wire.INIT_ACK):
        return opening_line(found)
    if kind == wire.SACK:
        return sack_line(found)
    if kind in (wire.HEARTBEAT, wire.HEARTBEAT_ACK):
        return '%s info %s' % (WORDS[kind], hex_text(found.value))
    if kind in (wire.ABORT, wire.ERROR):
        causes = 'causes ' + joined(cause for cause, _ in wire.read_items(found.value))
        return 'ERROR ' + causes if kind == wire.ERROR else 'ABORT t %d %s' % (found.t, causes)
    if kind == wire.SHUTDOWN:
        return 'SHUTDOWN cum %d' % struct.unpack('>I', found.value)
    if kind in (wire.SHUTDOWN_ACK, wire.COOKIE_ACK):
        return WORDS[kind]
    if kind == wire.SHUTDOWN_COMPLETE:
        return 'SHUTDOWN-COMPLETE t %d' % found.t
    if kind == wire.COOKIE_ECHO:
        return 'COOKIE-ECHO cookie %s' % hex_text(found.value)
    if kind in (wire.FORWARD_TSN, wire.I_FORWARD_TSN):
        return forward_line(found)
    return 'UNKNOWN %d flags %02x value %s' % (kind, found.flags, hex_text(found.value))


def print_bytes(form, text):
    """The lines for `packet` or `chunks` with this HEX, and the exit status."""
    if len(text) % 2 or not re.fullmatch('[0-9a-fA-F]*', text):
        return ['fault hex'], 2
    data = bytes.fromhex(text)
    try:
        if form == 'chunks':
            return [chunk_line(found) for found in wire.read_chunks(data)], 0
        packet = Packet(data)
        start = 'packet %d %d tag %08x' % (packet.source, packet.destination, packet.tag)
        return [start] + [chunk_line(found) for found in packet.chunks], 0
    except wire.Fault as fault:
        words = fault.args if form == 'packet' else (wire.WIRE,) + fault.args
        return ['fault %d' % words[0] if len(words) == 1 else 'fault %d %d at %d' % words], 2
