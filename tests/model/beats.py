"""The HEARTBEATs of an end (RFC 9260 sections 8.1 and 8.3)."""

import struct

import wire
from wire import WIDTHS, item

HEARTBEAT_INFO = 1


class Beats:
    """One after the other, while nothing is to be acknowledged; each says its number, and the answer to the last one counts, once."""

    def __init__(self, interval):
        """`interval`: HB.interval in milliseconds, None at an end that sends none."""
        self.interval, self.made, self.sent = interval, 0, None

    def wait(self, rto, tag):
        """The interval, and from half of the RTO to one and a half: by the tag, which is random, and their number."""
        return self.interval + rto // 2 + tag * (1 + self.made % 2**16) % (rto + 1)

    def info(self, own_tsn):
        """The value of the last one (section 3.3.5)."""
        return item(HEARTBEAT_INFO, struct.pack('>I', (own_tsn + self.made - 1) % 2**WIDTHS.tsn))

    def chunk(self, own_tsn):
        return wire.chunk(wire.HEARTBEAT, self.info(own_tsn))

    def trip(self, now, own_tsn, value):
        """The round trip that an answer measures, None if it is none to the last one, or that was answered before."""
        if self.sent is None or value != self.info(own_tsn):
            return None
        return now - self.sent

    def next(self, is_quiet):
        """Their timer expired: another one is made if nothing is to be acknowledged, and no answer to the one before counts any more."""
        self.made, self.sent = self.made + is_quiet, None
