"""What an endpoint counts of its packets, fragments, SACKs and messages."""

import wire

REASONS = 5                        # why a packet is dropped: fault, ports, tag, state, cookie (docs/FORMATS.md)
FIRST, BY_TIMER, FAST = range(3)   # how a fragment is sent: for the first time, or again, by the data timer or by three misses


class Counts:
    """All are 0 at first, and none ever falls."""

    def __init__(self):
        self.packets_out = self.bytes_out = self.packets_in = self.bytes_in = 0
        self.sacks_out = self.sacks_in = 0
        self.dropped = [0] * REASONS

    def goes(self, packet):
        """Each packet counts, an answer and an ABORT too."""
        self.packets_out += 1
        self.bytes_out += len(packet)
        return packet

    def comes(self, packet, verdict, zero=False):
        """Each packet that arrives counts, whatever its verdict; its SACKs do if it is taken, out of date or not. `zero`: its checksum may be 0."""
        self.packets_in += 1
        self.bytes_in += len(packet)
        if verdict[0] == 'dropped':
            self.dropped[verdict[1] - 1] += 1
        elif verdict[0] == 'taken':
            self.sacks_in += sum(chunk.kind == wire.SACK for chunk in wire.Packet(packet, zero).chunks)
        return verdict

    def line(self, sender):
        """The numbers in the order of the line `counts`; a sender is there with the association."""
        sendings, abandoned = (sender.sendings, len(sender.abandon_order)) if sender is not None else ([0] * 3, 0)
        return (self.packets_out, self.bytes_out, self.packets_in, self.bytes_in, *sendings, self.sacks_out, self.sacks_in, abandoned,
                *self.dropped)


def sending(entry, is_missed):
    """How this fragment goes out; whether it has three miss indications since it went out last."""
    if not entry.sent:
        return FIRST
    return FAST if is_missed else BY_TIMER
