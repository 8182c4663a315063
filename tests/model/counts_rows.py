#!/usr/bin/env python3
"""Rows of what an endpoint counts, with known answers, run on the model.

Prints what differs and how many passed; status 1 where one differs.
"""

import struct
import sys

import wire
from limited_rows import HANDSHAKE, row, run
from paced_rows import Run

SACK, OLD_SACK = wire.sack_chunk(999, 65536, [], []), wire.sack_chunk(998, 65536, [], [])
DATA, NO_DATA = wire.data_chunk(False, 3, 500, 0, 0, 0, b'a'), wire.data_chunk(False, 3, 500, 0, 0, 0, b'')
SHUTDOWN = wire.chunk(wire.SHUTDOWN, struct.pack('>I', 999))


class Counted(Run):
    """Such a script, and what A counts."""

    @property
    def counts(self):
        return self.end.counts.line(self.end.sender)

    @property
    def of_packets(self):
        """Packets and bytes out, packets and bytes in."""
        return self.counts[:4]

    @property
    def of_fragments(self):
        """Sent first, again by the timer, again by misses."""
        return self.counts[4:7]

    @property
    def of_sacks(self):
        return self.counts[7:9]

    @property
    def dropped(self):
        return self.counts[10:]

    def sends(self, count, data='61' * 1000, until='-'):
        for _ in range(count):
            self.send(data, until)
        return self.builds(count)

    def builds(self, count):
        for _ in range(count):
            self.build()
        return self

    def at_next(self):
        return self.at(self.next)


# ---- Packets ----

def packets():
    row('before any call', Counted('delay', opening=('at 0',)).counts, (0,) * 15)
    row('a call, without a packet', Counted('delay', opening=HANDSHAKE[:1]).of_packets, (0, 0, 0, 0))
    made = Counted('delay', mode='data', opening=HANDSHAKE[:6])
    row('INIT, INIT ACK, COOKIE ECHO', made.of_packets, (2, 32 + 88, 1, 108))
    made = Counted('delay', mode='data')
    row('an association', (made.counts, made.script.pair.ends['B'].counts.line(made.script.pair.ends['B'].sender)),
        ((2, 120, 2, 124) + (0,) * 11, (2, 124, 2, 120) + (0,) * 11))
    made.send()
    row('a message that waits', made.of_packets, (2, 120, 2, 124))
    made.build()
    row('its packet', made.of_packets, (3, 120 + 12 + 20, 2, 124))
    row('nothing to send', (made.build(), made.of_packets), ('quiet', (3, 152, 2, 124)))
    made.line('abort A 0102')
    row('an ABORT', made.of_packets, (4, 152 + 24, 2, 124))
    row('a second one is refused', (made.line('abort A -'), made.of_packets), ('refused 1', (4, 176, 2, 124)))
    row('closed, it answers', (made.foreign(DATA), made.of_packets), ('answer A 5 16', (5, 192, 3, 124 + 32)))


def reasons():
    made = Counted('delay', opening=('at 0',))
    tag = wire.packet(5001, 5000, 1, [SACK])
    made.line('foreign A -')
    row('no packet', (made.of_packets, made.dropped), ((0, 0, 1, 0), (1, 0, 0, 0, 0)))
    made.line('foreign A ' + wire.packet(5001, 5001, 1, [SACK]).hex())
    row('another port', made.dropped, (1, 1, 0, 0, 0))
    made.line('foreign A ' + wire.packet(5001, 5000, 1, [wire.chunk(wire.COOKIE_ACK)]).hex())
    row('not listed', (made.dropped, made.counts[2:4]), ((1, 1, 0, 1, 0), (3, len(tag) + 16)))
    made = Counted('delay')
    made.line('foreign A ' + wire.packet(5001, 5000, 1, [SACK]).hex())
    row('another tag', (made.dropped, made.of_sacks), ((0, 0, 1, 0, 0), (0, 0)))
    listener = Counted('delay', opening=('foreign B ' + wire.packet(5000, 5001, 1, [wire.chunk(wire.COOKIE_ECHO, bytes(72))]).hex(),))
    row('a cookie', listener.script.pair.ends['B'].counts.dropped, [0, 0, 0, 0, 1])


# ---- SACKs ----

def told(chunks, *lines):
    """How many SACKs the packet of these chunks adds behind these lines, and its verdict."""
    made = Counted('delay')
    for line in lines:
        made.line(line)
    before, said = made.of_sacks[1], made.foreign(*chunks)
    return made.of_sacks[1] - before, said.split(' ')[0]


def sacks():
    row('a SACK', told([SACK]), (1, 'taken'))
    row('three', told([SACK, SACK, SACK]), (3, 'taken'))
    row('out of date', told([OLD_SACK]), (1, 'taken'))
    row('one that acknowledges what was never assigned', told([wire.sack_chunk(1000, 65536, [], [])]), (0, 'answer'))
    row('before a fault of the peer', told([SACK, NO_DATA]), (0, 'answer'))
    row('not listed in ShutdownSent', told([SACK], 'shutdown A', 'build A'), (0, 'dropped'))
    row('there with data', [told(chunks, 'shutdown A', 'build A') for chunks in ([SACK, DATA], [DATA, SACK])], [(1, 'taken')] * 2)
    row('behind a chunk that ends the packet', told([wire.chunk(63), SACK, SACK]), (2, 'taken'))
    row('behind the last chunk of the association', told([SHUTDOWN, wire.chunk(wire.ABORT), SACK]), (1, 'taken'))
    made = Counted('delay', mode='data', opening=HANDSHAKE[:-1])
    row('before the COOKIE ACK, and behind it',
        (made.foreign(SACK), made.foreign(SACK, wire.chunk(wire.COOKIE_ACK)), made.of_sacks), ('dropped A 4', 'taken A', (0, 1)))

    made = Counted('delay')
    made.foreign(DATA)
    row('a SACK that waits', (made.build(), made.of_sacks), ('quiet', (0, 0)))
    row('it goes', (made.at(200).build(), made.of_sacks), ('SACK', (1, 0)))
    made.foreign(DATA)
    made.send()
    row('with data', (made.build(), made.of_sacks), ('SACK, 1000', (2, 0)))


# ---- Fragments ----

def fragments():
    made = Counted('delay', fragment=1000).sends(5)
    row('sent first', made.of_fragments, (5, 0, 0))
    made.sacks((999, (2, 2)), (999, (2, 3)), (999, (2, 4)))
    row('no misses without a pace', (made.build(), made.of_fragments), ('quiet', (5, 0, 0)))
    row('again by the timer', made.at_next().builds(9).of_fragments, (5, 2, 0))
    row('and again', made.at_next().builds(9).of_fragments, (5, 4, 0))
    row('of one packet', Counted('delay', fragment=4).sends(1, '61' * 40).of_fragments, (10, 0, 0))

    made = Counted('fast-retransmit', fragment=1000).sends(5)
    made.sacks((999, (2, 2)), (999, (2, 3)), (999, (2, 4)))
    row('again by misses', made.builds(2).of_fragments, (5, 0, 1))
    row('by an expiry all count anew', made.at_next().builds(9).of_fragments, (5, 2, 1))

    made = Counted('fast-retransmit', fragment=1000).sends(5).at_next()
    made.build()
    row('one by the timer, the others wait', made.of_fragments, (5, 1, 0))
    made.sacks((999, (3, 3)), (999, (3, 4)), (999, (3, 5)))
    row('what was missed three times meanwhile is a fast one, what went again isn\'t missed', made.builds(9).of_fragments, (5, 1, 1))

    made = Counted('fast-retransmit', fragment=1000).sends(5)
    made.sacks((999, (2, 2)), (999, (2, 3)), (999, (2, 4)))
    row('what was missed, and is marked by the timer before it goes', made.at_next().builds(9).of_fragments, (5, 1, 1))

    made = Counted('congestion-control', fragment=1000).sends(5)
    made.sacks((999, (2, 2)), (999, (2, 3)), (999, (2, 4)))
    made.send('62' * 1000)
    row('the packet of a rescue', (made.build(), made.of_fragments), ('1000', (5, 0, 1)))
    made.sack(1004)
    row('then a new one', (made.build(), made.of_fragments), ('1005', (6, 0, 1)))

    made = Counted('fast-retransmit', mode='idata-pr', fragment=4)
    made.send('61' * 12)
    made.sack(999, rwnd=4)
    made.build()
    made.line('abandon A 1')
    row('an end mark is never sent', (made.end.sender.last(), made.builds(3).of_fragments), (2, (1, 0, 0)))


def messages():
    made = Counted('delay', fragment=1000)
    made.send()
    made.line('abandon A 1')
    row('withdrawn', made.counts[9], 0)
    made.sends(2, until='x0')
    made.line('abandon A 2')
    made.line('abandon A 2')
    row('abandoned', made.counts[9], 1)
    row('at its limit', (made.at_next().counts[9], made.of_fragments), (2, (2, 0, 0)))
    made = Counted('delay', mode='data').sends(1)
    made.line('abandon A 1')
    row('reliable', made.counts[9], 0)
    made = Counted('delay').sends(1, until='500')
    row('past its lifetime, and then closed', (made.at(500).line('abort A -') and made.counts[9]), 1)


if __name__ == '__main__':
    sys.exit(run(packets, reasons, sacks, fragments, messages))
