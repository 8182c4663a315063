"""What the picture of an association shows of its packets: the chunks by name, with the numbers that a reader looks for (RFC 9260, 3)."""

import struct
import time

NAMES = {0: "DATA", 1: "INIT", 2: "INIT ACK", 3: "SACK", 4: "HEARTBEAT", 5: "HEARTBEAT ACK", 6: "ABORT", 7: "SHUTDOWN", 8: "SHUTDOWN ACK", 9: "ERROR",
         10: "COOKIE ECHO", 11: "COOKIE ACK", 14: "SHUTDOWN COMPLETE", 64: "I-DATA", 130: "RE-CONFIG", 192: "FORWARD-TSN", 194: "I-FORWARD-TSN"}
NUMBERED = {0, 3, 64, 192, 194}  # the first field is a TSN: the chunk's own, the cumulative TSN acknowledged, or the new one


def chunks(packet):
    """[name, TSN or None, stream or None] of each chunk of a packet."""
    found, at = [], 12
    while at + 4 <= len(packet):
        kind, _, length = struct.unpack_from(">BBH", packet, at)
        if length < 4 or at + length > len(packet):
            break
        tsn = struct.unpack_from(">L", packet, at + 4)[0] if kind in NUMBERED and length >= 8 else None
        stream = struct.unpack_from(">H", packet, at + 8)[0] if kind in (0, 64) and length >= 10 else None
        found.append([NAMES.get(kind, f"chunk {kind}"), tsn, stream])
        at += length + -length % 4
    return found


def picture(carrier, since):
    """What was sent and received since the packet of this number, and how the endpoint is if it is one of this program's."""
    channels = getattr(carrier, "channels", None)
    return {"now": time.monotonic_ns() // 1_000_000, "packets": [packet for packet in carrier.packets if packet[0] > since],
            "endpoint": channels and endpoint(channels)}


def endpoint(channels):
    status, counts = channels.status(), channels.counts()
    return {
        "state": status.state.name, "ended": status.ended and status.ended.name, "window": status.peer_window, "queued": status.queued,
        "outstanding": status.outstanding, "path": channels.path()._asdict(),
        "counts": {name: value for name, value in counts._asdict().items() if isinstance(value, int)},
    }
