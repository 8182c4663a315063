#!/usr/bin/env python3
"""Rows of congestion control with known answers: windows, losses, bursts, the window in use, whole chunks, growth, CUBIC.

The numbers follow from the rules (RFC 9260 sections 6.1 and 7.2, RFC 9438), by hand or by proof: they are those of `ControlExamples` and `AliveExamples` of
sctp_outcomes. Prints what differs and how many passed; status 1 where one differs.
"""

import sys

from cubic import Cubic, Epoch, cube_root
from endpoint import Writer
from limited_rows import row, run
from pace import GREATEST_WINDOW, News, Window
from sender import Sender


def window(cwnd, ssthresh, acked=0, growth=1, cubic=None, **others):
    """A packet went since the last acknowledgement, and didn't fill it."""
    made = Window(1000, 0, growth, cubic)
    made.cwnd, made.ssthresh, made.acked, made.burst, made.was_sent = cwnd, ssthresh, acked, 9000, True
    for name, value in others.items():
        setattr(made, name, value)
    return made


def numbers(made):
    return made.cwnd, made.ssthresh, made.acked, made.burst


def after(made, *acts):
    for act in acts:
        act(made)
    return made


def heard(made, *news, **said):
    """`news`: in flight before and after, newly acknowledged; CUM moved unless it is said not to have."""
    made.heard(News(*news, **{'moved': True, **said}))
    return made


# ---- Windows (7.2.1 and 7.2.2) ----

def grown(cwnd, ssthresh, acked, flight, count, **others):
    made = window(cwnd, ssthresh, acked, **others)
    made.grow(News(flight, 0, count))
    return made.cwnd, made.acked


row('initial windows', [Window(limit - 12, 0).cwnd for limit in (576, 1480, 1500)], [2256, 4404, 4404])
row('the first ssthresh and burst', (Window(1468, 65536).ssthresh, Window(1468, 65536).burst), (65536, 4404))
row('slow start', [grown(4000, 9000, 0, 4000, 500), grown(4000, 9000, 0, 5200, 2400), grown(4000, 9000, 0, 3999, 2400),
                   grown(9000, 9000, 0, 9000, 1000)], [(4500, 0), (5000, 0), (4000, 0), (10000, 0)])
row('by two packets at most', [grown(4000, 9000, 0, 4000, 2400, growth=2), grown(4000, 9000, 0, 4000, 1500, growth=2),
                               grown(5000, 4000, 2000, 5000, 3001, growth=2)], [(6000, 0), (5500, 0), (6000, 1)])
row('avoidance', [grown(5000, 4000, 2000, 5000, 2999), grown(5000, 4000, 2000, 5000, 3001), grown(5000, 4000, 2000, 4999, 2999),
                  grown(5000, 4000, 4000, 4999, 3000)], [(5000, 4999), (6000, 1), (5000, 4999), (5000, 5000)])
row('the greatest window', grown(2**32 - 500, 2**32, 0, 2**32, 1000)[0], 2**32 - 1)
row('partial_bytes_acked ends there too', [grown(4000, 1000, 0, 4000, count)[1] for count in (2**32 + 3999, 2**32 + 4000)], [GREATEST_WINDOW] * 2)

# ---- Losses (7.2.3 and 7.2.4) ----

row('Fast Recovery', numbers(after(window(10000, 9000, 77), Window.recover)), (5000, 5000, 0, 9000))
row('four packets at least', numbers(after(window(6000, 9000), Window.recover)), (4000, 4000, 0, 9000))
row('an expiry', numbers(after(window(10000, 9000, 77), Window.expired)), (1000, 5000, 0, 1))
row('the window is open', [window(4000, 9000).is_open(flight) for flight in (0, 3999, 4000)], [True, True, False])
row('behind an expiry', [after(window(4000, 9000), Window.expired).is_open(flight) for flight in (0, 1)], [True, False])

# ---- Bursts (6.1, rule D) ----

row('four packets more than are in flight', heard(window(10000, 9000, 77), 3500, 2500, 1000, recovers=True).burst, 6500)
row('the greatest limit of bursts', [heard(window(10000, 9000), 0, left, 1).burst for left in (2**32 - 4001, 2**32 - 4000)], [GREATEST_WINDOW] * 2)
row('no burst for nothing new', heard(after(window(10000, 9000), Window.expired), 900, 900, 0, waits=True).burst, 1)
row('nothing left in flight', heard(window(10000, 9000, 77), 1000, 0, 1000, recovers=True).acked, 0)


def in_turn(recovers, waits):
    """Four acknowledgements of two packets each, and no packet between."""
    made, found = window(20000, 9000), []
    for flight in (20000, 18000, 16000, 14000):
        found.append(heard(made, flight, flight - 2000, 2000, recovers=recovers, waits=waits).burst)
    return found


row('what they allow adds up to a window while something waits', in_turn(False, True), [24000, 28000, 32000, 32000])
row('nothing waits, or in Fast Recovery', [in_turn(False, False), in_turn(True, True)], [[22000, 20000, 18000, 16000]] * 2)
row('one packet takes all of it', heard(window(20000, 9000, burst=24000), 18000, 16000, 2000, waits=True).burst, 22000)
row('none did', heard(window(20000, 9000, burst=24000, was_sent=False), 18000, 16000, 2000, waits=True).burst, 28000)
row('behind an expiry', heard(after(window(20000, 9000), Window.expired), 1000, 0, 1000, waits=True).burst, 4000)
row('a window of one packet doesn\'t starve', heard(window(1000, 9000), 1000, 0, 1000, waits=True).burst, 4000)
row('a loss that begins Fast Recovery', heard(window(20000, 9000, was_sent=False, burst=30000), 20000, 16000, 2000, waits=True, lost=True).burst, 20000)


# ---- A window that is in use, gap blocks, rescues ----

def filled(waits):
    return heard(window(10000, 20000, is_full=True), 6000, 5000, 1000, waits=waits).cwnd


row('the last packet filled the window', [filled(True), filled(False)], [11000, 10000])
row('an expiry forgets that', after(window(10000, 20000, is_full=True), Window.expired).is_full, False)
row('a packet fills it at its size, and not below', [after(window(10000, 0), lambda w: w.sent(flight)).is_full for flight in (9999, 10000)], [False, True])
row('CUM stays', [heard(window(4000, 9000), 4000, 3500, 500, moved=False, recovers=recovers).cwnd for recovers in (False, True)], [4500, 4000])


def spared(**said):
    return heard(window(4000, 9000), 4000, 3000, 1000, waits=True, **said).rescue


row('a packet of retransmissions: a further loss in Fast Recovery, CUM moves in it, neither, CUM moves outside it',
    [spared(recovers=True, lost=True, moved=False), spared(recovers=True), spared(recovers=True, moved=False), spared()], [True, True, False, False])
row('it stays until a packet goes', [after(window(4000, 9000, rescue=True), lambda w: heard(w, 4000, 4000, 0, moved=False)).rescue,
                                     after(window(4000, 9000, rescue=True), lambda w: w.sent(0)).rescue], [True, False])
row('further losses cut nothing', numbers(heard(window(10000, 9000), 10000, 8000, 1000, recovers=True, lost=True)), (10000, 9000, 0, 12000))


# ---- Whole chunks (7.2) ----

def sizes(interleave, *lengths):
    made = Sender(interleave, 1, 1, 1000, 100000, False)
    for length in lengths:
        made.send(0, True, 0, bytes(length), None)
    made.fill(Writer(1500))
    return [made.chunk_size(i) for i in made.above_cum()]


row('DATA and I-DATA of some bytes', [sizes(False, 1, 4, 5), sizes(True, 1, 5)], [[20, 20, 24], [24, 28]])
row('73 messages of one byte fill a packet of 1,480, and the first window lets four such packets go',
    [Window(1468, 65536).is_open(packets * 73 * 20) for packets in range(5)], [True, True, True, True, False])


# ---- CUBIC (RFC 9438) ----

def epoch(additive, start=0, rise=2466, origin=20000):
    made = Epoch(start, 1000, additive, 0)
    made.rise, made.origin = rise, origin
    return made


def by_cubic(cwnd, additive):
    return window(cwnd, 10000, cubic=Cubic(20000, epoch(additive)))


def opened(cwnd, additive, now, trip, flight=None):
    made = by_cubic(cwnd, additive)
    made.grow(News(cwnd if flight is None else flight, 0, 2000, now=now, trip=trip))
    return made.cwnd


row('cube roots', [cube_root(n) for n in (0, 7, 8, 26, 27)], [0, 1, 2, 2, 3])
row('the window after a loss at 20 packets', [epoch(0).window(1000, time) for time in (0, 1000, 2466, 3000, 5000)], [14002, 18740, 20000, 20060, 26508])
row('toward the target; not in use; to that of additive increase; by half at most',
    [opened(14000, 14000, 1000, 100), opened(14000, 14000, 1000, 100, 0), opened(14000, 15000, 10, 0), opened(14001, 14000, 20000, 100)],
    [14711, 14000, 15075, 15000])
row('an epoch begins at the window of the loss, or above it',
    [(Epoch(7, 1000, cwnd, 20000).rise, Epoch(7, 1000, cwnd, 20000).origin) for cwnd in (20000, 30000, 14000)], [(0, 20000), (0, 30000), (2466, 20000)])


def begun():
    made = Cubic(20000)
    made.acknowledged(7, 1000, 20000, 2000)
    return made.epoch.additive, made.epoch.start


row('its additive increase', begun(), (20100, 7))


def lost(made, act):
    act(made)
    return made.cwnd, made.ssthresh, made.cubic.peak, made.cubic.epoch


row('losses at 20, 10 and 5 packets, and an expiry',
    [lost(by_cubic(20000, 14000), Window.recover), lost(by_cubic(10000, 14000), Window.recover), lost(by_cubic(5000, 14000), Window.recover),
     lost(by_cubic(20000, 14000), Window.expired)],
    [(14000, 14000, 20000, None), (7000, 7000, 8500, None), (4000, 4000, 4250, None), (1000, 14000, 0, None)])


if __name__ == '__main__':
    sys.exit(run())
