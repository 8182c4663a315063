#!/usr/bin/env python3
"""Rows of ends with fast retransmit, congestion control, RTO.Min and limits of retransmissions, with known answers, run on the model.

Prints what differs and how many passed; status 1 where one differs. `paced_rows.py --scripts` prints the scripts of the rows that are some,
and what the model says of them.
"""

import struct
import sys

import end
import limited_rows
import wire
from endpoint import LAST_MOMENT
from limited_rows import HANDSHAKE, fault, row, run
from pace_rows import of_trips


class Run(limited_rows.Run):
    """Such a script; A has a pace."""

    @property
    def wait(self):
        return self.end.timers['data'].wait

    @property
    def window(self):
        window = self.end.pace.window
        return window.cwnd, window.ssthresh


def misses_and_limits():
    made = Run('fast-retransmit', fragment=1000)
    made.send('61' * 5000, 'x0')
    for _ in range(5):
        made.build()
    made.sack(999, (2, 2))
    made.sack(999, (2, 3))
    made.says('worn: two misses', (made.given_up, made.build()), ([], 'quiet'))
    made.at(500).sack(999, (2, 4))
    made.says('worn: given up at the third, the timer anew', (made.given_up, made.next, made.build(), made.build()), ([1], 1500, 'forward 1004', 'quiet'))

    made = Run('fast-retransmit', fragment=1000)
    made.send('61' * 5000, 'x1')
    for _ in range(5):
        made.build()
    made.at(500).sacks((999, (2, 2)), (999, (2, 3)), (999, (2, 4)))
    made.says('limit 1: once again', (made.given_up, made.build(), made.build(), made.next), ([], '1000', 'quiet', 1500))
    made.at(600).sacks((999, (2, 5)), (999, (2, 5)), (999, (2, 5)))
    made.says('missed once between two expiries', (made.given_up, made.build()), ([], 'quiet'))
    made.says('then the timer gives up', (made.at(1500).build(), made.given_up), ('forward 1004', [1]))

    made = Run('fast-retransmit', mode='idata-pr', fragment=1000)
    made.send('61' * 6000, 'x0')
    for _ in range(5):
        made.build()
    made.sacks((999, (2, 2)), (999, (2, 3)), (999, (2, 4)), (1005,))
    made.says('an end mark at the packet\'s end, not before its last SACK', (made.given_up, made.end.state), ([], 'Closed'))

    made = Run('fast-retransmit', mode='idata-pr', fragment=1000)
    made.send('61' * 6000, 'x0')
    for _ in range(5):
        made.build()
    made.sacks((999, (2, 2)), (999, (2, 3)), (999, (2, 4)))
    made.says('the end mark has a TSN then', (made.given_up, made.build(), made.build()), ([1], 'forward 1005', 'quiet'))
    made.says('and is acknowledged', (made.sack(1005), made.next, made.end.sender.drained()), ('taken A', None, True))

    made = Run('fast-retransmit', fragment=1000)
    made.send('61' * 1000, 'x0')
    made.send('62' * 4000)
    for _ in range(5):
        made.build()
    made.sacks((999, (2, 2)), (999, (2, 3)), (999, (2, 4)), (1000, (1, 3)))
    made.says('worn, and acknowledged in the same packet', (made.given_up, made.build()), ([], 'quiet'))


    made = Run('congestion-control', fragment=1000)
    made.send('61' * 1000, 'x0')
    made.send('62' * 3000)
    for _ in range(4):
        made.build()
    made.send('63' * 2000)
    made.sacks((999, (2, 2)), (999, (2, 3)), (999, (2, 4)))
    made.says('worn, with congestion control: the window is cut, a FORWARD goes, and what waits',
             (made.window, made.given_up, made.build(), made.build(), made.build()), ((5952, 5952), [1], 'forward 1000, 1004', '1005', 'quiet'))

    made = Run('fast-retransmit', mode='data', fragment=1000)
    made.send('61' * 1000, 'x0')
    made.send('62' * 3000)
    for _ in range(4):
        made.build()
    made.sacks((999, (2, 2)), (999, (2, 3)), (999, (2, 4)))
    made.says('no partial reliability: it goes again', (made.given_up, made.build()), ([], '1000'))


    for packets in ([((999, (2, 3)), (999, (2, 4)), (999, (2, 5)), (999, (3, 5)))], [((999, (2, 3)), (999, (2, 4)), (999, (2, 5))), ((999, (3, 5)),)]):
        made = Run('fast-retransmit', fragment=1000)
        made.send('61' * 1000)
        made.send('62' * 1000, 'x0')
        made.send('63' * 3000)
        for _ in range(5):
            made.build()
        for told in packets:
            made.sacks(*told)
        made.says('what is taken back counts as sent then: in the same packet, and in the next', made.given_up, [])


def waits():
    made = Run('fast-retransmit rto-min 0')
    made.says('the handshake\'s trip of 0', (made.wait, of_trips(made.end.pace.trips)), (4, (0, 0)))
    made = Run('fast-retransmit rto-min 0', handshake=100)
    made.says('the handshake\'s trip of 100', (made.wait, of_trips(made.end.pace.trips)), (300, (800, 200)))
    made = Run('fast-retransmit', handshake=100)
    made.says('the same with RTO.Min', made.wait, 1000)
    made = Run('fast-retransmit rto-min 4294967295', handshake=100)
    made.says('RTO.Min of 2^32 - 1', made.wait, 60000)
    made = Run('delay', handshake=100)
    made.says('no pace without an option', (made.wait, made.end.pace), (1000, None))
    made = Run('fast-retransmit rto-min 5000', opening=('open',))
    made.says('opened without packets', (made.wait, of_trips(made.end.pace.trips)), (1000, (None, None)))
    made = Run('congestion-control rto-min 0', handshake=1200)
    made.says('a COOKIE ECHO whose timer expired, and that isn\'t built again', (made.wait, of_trips(made.end.pace.trips)), (2000, (None, None)))
    made = Run('rto-min 0', handshake=100)
    made.says('RTO.Min alone is no pace', (made.wait, made.end.pace), (1000, None))

    made = Run('fast-retransmit')
    made.end.timers['data'].wait = 60000
    made.send()
    made.build()
    made.says('60,000 isn\'t doubled', (made.at(60000).build(), made.next, made.wait), ('1000', 120000, 60000))


def doubled_handshake():
    """A COOKIE ECHO that went twice measures nothing: its doubled RTO is the data timer's first one (6.3.3, E2)."""
    made = Run('fast-retransmit rto-min 0', 'both', opening=(
        *HANDSHAKE[:6], 'at 1000', 'build A', 'at 1500', 'deliver A 3', *HANDSHAKE[7:]))
    listener = made.script.pair.ends['B']
    made.says('a COOKIE ECHO that went twice', (made.wait, of_trips(made.end.pace.trips)), (2000, (None, None)))
    made.says('the listener measures from its INIT ACK', (listener.timers['data'].wait, of_trips(listener.pace.trips)), (4500, (12000, 3000)))


def late_handshake():
    """A COOKIE ECHO in the last second that there is: its start is told by its timer, whose expiry is the last moment."""
    made = Run('fast-retransmit rto-min 0', opening=('at %d' % (LAST_MOMENT - 500), *HANDSHAKE[:6], 'at %d' % (LAST_MOMENT - 400), *HANDSHAKE[6:]))
    made.says('a COOKIE ECHO beside the last moment', of_trips(made.end.pace.trips), (4800, 1200))


def timer_rows():
    for options in ('fast-retransmit', 'delay'):
        made = Run(options, fragment=4)
        made.send('61' * 20)
        made.build()
        made.sack(999, (1, 5))
        made.at(1)
        made.sack(999)
        flight, moment = made.end.sender.in_flight(), made.next
        made.says('R4, a peer that takes it back, ' + options, (flight, moment, made.at(1001).build()), (20, 1001, '1000, 1001, 1002, 1003, 1004'))

    made = Run('fast-retransmit delay rto-min 200', handshake=0)
    made.send()
    made.build()
    made.foreign(wire.data_chunk(False, 3, 500, 0, 0, 0, b'a'))
    made.says('both at one moment: the timer and a SACK that waits', (made.build(), made.next, made.at(200).build(), made.wait),
             ('quiet', 200, 'SACK, 1000', 400))

    for options, count in (('fast-retransmit rto-min 0', 1), ('fast-retransmit rto-min 0 standard-closing', 0)):
        made = Run(options, fragment=4, handshake=100)
        made.send('61' * 12)
        made.build()
        made.at(400).build()
        made.send('62')
        made.build()
        made.says('an expiry', (made.next, made.wait), (1000, 600))
        made.at(500).foreign(wire.chunk(wire.SHUTDOWN, struct.pack('>I', 1001)))
        timer = made.end.timers['data']
        made.says('a SHUTDOWN moves CUM: ' + options, (made.next, made.wait, timer.count, made.end.state, of_trips(made.end.pace.trips)),
                 (800, 300, count, 'ShutdownReceived', (800, 200)))
        made.at(550).foreign(wire.chunk(wire.SHUTDOWN, struct.pack('>I', 1003)))
        made.says('a SHUTDOWN measures: ' + options, (of_trips(made.end.pace.trips), made.end.state, made.next), ((850, 200), 'ShutdownAckSent', None))


def pace_of_windows():
    made = Run('congestion-control', limit=576, fragment=4, buffer=16777216)
    made.send('61' * 4000)
    packets = []
    while True:
        said = made.build()
        if said == 'quiet':
            break
        packets.append(said.count(',') + 1)
    made.says('the first window: bytes of whole chunks, a packet past it at most', (made.window, packets, made.end.sender.in_flight()),
             ((2256, 16777216), [28] * 5, 560))
    made.at(1000)
    made.says('behind an expiry one packet', (made.build().count(',') + 1, made.build(), made.window), (28, 'quiet', (564, 2256)))
    made.sack(1027)
    made.says('an acknowledgement opens it', ([made.build().count(',') + 1 for _ in range(2)], made.build(), made.window), ([28, 28], 'quiet', (564, 2256)))
    made.sack(1055)
    made.says('which was full, and grows then', ([made.build().count(',') + 1 for _ in range(2)], made.build(), made.window), ([28, 28], 'quiet', (1124, 2256)))

    made = Run('congestion-control', fragment=1000)
    made.send('61' * 5000)
    for _ in range(5):
        made.build()
    made.send('62', '500')
    made.says('the window is full, and holds back', (made.end.sender.in_flight(), made.build()), (5000, 'quiet'))
    made.says('`until` passes meanwhile', (made.at(500).build(), len(made.end.sender.queue), made.given_up), ('quiet', 0, []))


def lines_of_an_end():
    def told(options):
        made = Run(options, fragment=1000, handshake=100)
        made.send('61' * 5000, 'x1')
        for _ in range(5):
            made.build()
        made.at(150).sacks((1000, (2, 2)), (1000, (2, 3)), (1000, (2, 4)))
        made.build()
        made.at(1150).build()
        made.foreign()
        return end.path_of(made.end), end.counts_of(made.end)
    for options, wanted in (
            ('delay', ('path 1000 - - - - -', 'counts 8 6300 4 220 5 1 0 0 3 0 1 0 0 0 0')),
            ('fast-retransmit rto-min 0', ('path 0 93 50 586 - -', 'counts 9 6324 4 220 5 0 1 0 3 1 1 0 0 0 0')),
            ('congestion-control', ('path 0 93 50 2000 1488 5952', 'counts 9 6324 4 220 5 0 1 0 3 1 1 0 0 0 0'))):
        row('path and counts, ' + options, told(options), wanted)


def words_of_options():
    pair = 'pair 1500 1400 65536 1 data'
    for words, wanted in (('fast-retransmit', None), ('congestion-control', None), ('rto-min 0', None), ('rto-min 4294967295', None),
                          ('rto-min 4294967296', 4),
                          ('rto-min -1', 4), ('rto-min 01', 4), ('rto-min', 2), ('rto-min 1 2', 2), ('fast-retransmit 1', 2),
                          ('fast_retransmit', 2), ('Fast-retransmit', 2), ('rto-min delay', 4),
                          ('congestion-control fast-retransmit rto-min 5 rto-min 6 delay', None)):
        row('options A ' + words, fault(pair, 'options A ' + words, 'open'), wanted and (2, wanted))

    def set_up(text):
        made = end.end_of(('caller 1500 1400 65536 1 data %s 5000 5001' % text).replace('  ', ' ').encode().split(b' '))
        return made and [getattr(made.config, name) for name in ('delay', 'standard_closing', 'fast_retransmit', 'congestion_control', 'rto_min')]
    for words, wanted in (
            ('', [False, False, False, False, 1000]), ('fast-retransmit', [False, False, True, False, 1000]),
            ('congestion-control', [False, False, True, True, 1000]), ('fast-retransmit congestion-control', [False, False, True, True, 1000]),
            ('rto-min 0', [False, False, False, False, 0]),
            ('delay standard-closing fast-retransmit congestion-control rto-min 4294967295', [True, True, True, True, 2**32 - 1]),
            ('rto-min 4294967296', None), ('rto-min', None), ('congestion-control fast-retransmit', None), ('rto-min 5 fast-retransmit', None),
            ('fast-retransmit standard-closing', None), ('fast-retransmit fast-retransmit', None), ('rto-min 5 rto-min 5', None)):
        row('sctp-end with ' + words, set_up(words), wanted)


if __name__ == '__main__':
    sys.exit(run(misses_and_limits, waits, doubled_handshake, late_handshake, timer_rows, pace_of_windows, lines_of_an_end, words_of_options))
