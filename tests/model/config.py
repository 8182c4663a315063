"""What an endpoint is set up with, and what it says of that in INIT and INIT ACK."""

import wire
from cubic import Cubic
from pace import FIRST_WAIT, LEAST_WAIT, LONGEST_WAIT
from receiver import BLOCK_LIMIT, DUPLICATE_LIMIT
from sender import MESSAGE_LIMIT
from wire import item

OPENING_REPEATS, OTHER_REPEATS = 8, 10           # Max.Init.Retransmits and Association.Max.Retrans (RFC 9260 section 16)
WRONG_PORT, WRONG_LIMIT, WRONG_FRAGMENT, WRONG_BUFFER, WRONG_STREAMS = 1, 2, 3, 4, 5
WRONG_WAIT, WRONG_RESERVE, WRONG_MESSAGE, WRONG_QUEUE, WRONG_GROWTH = 6, 7, 8, 9, 10
GREATEST_GROWTH = 16

# Options that no call and no word sets yet, as they are without one.
FURTHER = {
    'first_wait': FIRST_WAIT,               # RTO.Initial and RTO.Max in milliseconds
    'longest_wait': LONGEST_WAIT,
    'repeats': OTHER_REPEATS,
    'opening_repeats': OPENING_REPEATS,
    'heartbeat': None,                      # HB.interval in milliseconds, None: it sends no HEARTBEAT (RFC 9260 section 8.3)
    'progress': False,                      # a SACK that acknowledges nothing doesn't clear the count of expiries (8.1)
    'guard': False,                         # T5-shutdown-guard (9.2)
    'updates': False,                       # a SACK where the window opens as messages are taken (6.2)
    'reserve': 0,                           # bytes of the buffer that a chunk after a gap leaves free
    'all_blocks': False,                    # as many gap blocks as a packet of its own holds (3.3.4)
    'growth': 1,                            # L of 7.2.1
    'cubic': False,                         # RFC 9438
    'longest_message': MESSAGE_LIMIT,
    'queue_bytes': None,                    # of the messages without TSNs, None: no limit
    'strict': False,                        # RFC 8260 section 2.1; an INIT ACK says what was agreed on alone
    'zero_checksum': False,                 # RFC 9653
}


def is_between(least, greatest, number):
    return least <= number <= greatest


class Config:
    def __init__(self, own_port, peer_port, limit, fragment, buffer, streams, partial, interleave,
                 delay=False, standard_closing=False, fast_retransmit=False, congestion_control=False, rto_min=LEAST_WAIT,
                 reset=False, **further):
        """`outbound`: the streams that it asks for; `inbound`: those that it accepts. `delay`: a SACK may
        wait (RFC 9260 section 6.2). `standard_closing`: the timers of a closing go by RFC 9260 sections
        6.3.2, 8.1 and 9.2, not by the profile. `fast_retransmit`: round trips are measured, and what three
        SACKs missed goes again (6.3.1, 7.2.4); `congestion_control`: this too, and a window (7.2). `reset`:
        streams may be reset (RFC 6525). `further`: options of FURTHER."""
        self.own_port, self.peer_port, self.limit, self.fragment = own_port, peer_port, limit, fragment
        self.buffer, self.outbound, self.inbound = buffer, streams, streams
        self.partial, self.interleave, self.reset = partial, interleave, reset
        self.delay, self.standard_closing = delay, standard_closing
        self.fast_retransmit = fast_retransmit or congestion_control
        self.congestion_control, self.rto_min = congestion_control, rto_min
        self.set(**further)

    def set(self, **further):
        """These options of FURTHER, and each other as it is without one."""
        for name, value in {**FURTHER, **further}.items():
            if name not in FURTHER:
                raise TypeError(name)
            setattr(self, name, value)

    def fault(self):
        """The first that it has, as a number, or None."""
        tests = (
            (WRONG_PORT, min(self.own_port, self.peer_port) > 0 and max(self.own_port, self.peer_port) < 2**16),
            (WRONG_LIMIT, is_between(576, 1_500, self.limit)),
            (WRONG_FRAGMENT, is_between(4, 1_400, self.fragment) and 32 + wire.padded(self.fragment) <= self.limit),
            (WRONG_BUFFER, is_between(65_536, 16_777_216, self.buffer)),
            (WRONG_STREAMS, is_between(1, 1_024, self.outbound) and is_between(1, 1_024, self.inbound)),
            (WRONG_WAIT, 1 <= self.first_wait <= self.longest_wait <= LONGEST_WAIT),
            (WRONG_RESERVE, self.reserve <= self.buffer),
            (WRONG_MESSAGE, is_between(1, (2**15 - 1) * self.fragment, self.longest_message)),
            (WRONG_QUEUE, self.queue_bytes is None or self.queue_bytes >= self.longest_message),
            (WRONG_GROWTH, is_between(1, GREATEST_GROWTH, self.growth)))
        return next((fault for fault, is_right in tests if not is_right), None)

    @property
    def streams_alone(self):
        """The streams each way of an end that takes its peer to be configured as itself (section 5.1.1)."""
        return min(self.outbound, self.inbound)

    @property
    def most_blocks(self):
        """Gap blocks of a SACK: 64, or as many as a packet of its own holds beside the duplicates that it may have."""
        return (self.limit - (wire.HEADER + 16 + 4 * DUPLICATE_LIMIT)) // 4 if self.all_blocks else BLOCK_LIMIT

    @property
    def for_cubic(self):
        """What its congestion control begins with, None where it goes by RFC 9260."""
        return Cubic() if self.cubic else None

    def would_agree(self, other):
        """Whether two ends that take each other to be configured alike are right in what both must know."""
        return ((self.streams_alone, self.partial, self.interleave, self.reset, self.zero_checksum)
                == (other.streams_alone, other.partial, other.interleave, other.reset, other.zero_checksum))

    # ---- INIT and INIT ACK ----

    def options(self, opening=None):
        """The option parameters of INIT, and of the INIT ACK that answers this one (RFC 3758 3.3, RFC 6525 5.1.1, RFC 8260 2.2.1,
        RFC 9653 4)."""
        partial, interleave, may_reset, zero = self.partial, self.interleave, self.reset, self.zero_checksum
        if self.strict and opening is not None:
            partial, interleave, may_reset, zero = self.agreed(opening)
        types = bytes([wire.I_DATA] * interleave + [wire.RE_CONFIG] * may_reset + [wire.FORWARD_TSN] * partial
                      + [wire.I_FORWARD_TSN] * (partial and interleave))
        return (([item(wire.FORWARD_SUPPORTED)] if partial else [])
                + ([item(wire.SUPPORTED_EXTENSIONS, types)] if types else [])
                + ([item(wire.ZERO_CHECKSUM, wire.OVER_DTLS)] if zero else []))

    def agreed(self, opening):
        """(partial reliability, I-DATA, stream reset, zero checksums) with a peer that sent this INIT or INIT ACK."""
        interleave = self.interleave and opening.lists(wire.I_DATA)
        partial = self.partial and opening.partial
        if interleave:
            partial = partial and opening.lists(wire.I_FORWARD_TSN)
        return (partial, interleave, self.reset and opening.lists(wire.RE_CONFIG),
                self.zero_checksum and opening.zero_checksum == wire.OVER_DTLS)
