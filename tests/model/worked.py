#!/usr/bin/env python3
"""Worked cases with known outcomes, run on the model. Prints what differs; status 1 then.

A case is a list of (line, outcome) and its report; `bytes_of` asks for a packet of a bag.
"""

import sys

import model
import wire

OPEN = 'open'


def foreign(y, tag, *chunks, source=None, destination=None):
    """A `foreign` line with a packet for end y."""
    other = {'A': 5001, 'B': 5000}[y]
    own = {'A': 5000, 'B': 5001}[y]
    packet = wire.packet(source or other, destination or own, tag, [unhex(c) for c in chunks])
    return 'foreign %s %s' % (y, packet.hex())


def unhex(text):
    return bytes.fromhex(text.replace(' ', ''))


HI = '00030012 00000001 0000 0000 00000000 4869 0000'
CASES, FAULTS = [], []


def fault(lines, kind):
    """The last of these lines has a fault of this kind, or none has one."""
    FAULTS.append(('\n'.join(lines).encode(), None if kind is None else (len(lines), kind)))


def case(name, steps, report=None, bags=None, some=None):
    CASES.append((name, steps, report, bags or {}, some or []))


OPENING = [
    ('pair 1500 1400 65536 1 data', None), ('connect 7 100', 'ok'), ('build A', 'sent A 1 32'),
    ('draw 9 500', 'ok'), ('deliver A 1', 'answer B 1 108'), ('deliver A 1', 'answer B 2 108'),
    ('deliver B 1', 'taken A'), ('deliver B 1', 'dropped A 4'), ('build A', 'sent A 2 88'),
    ('deliver A 2', 'taken B'), ('deliver A 2', 'taken B'), ('build B', 'sent B 3 16'),
    ('deliver B 3', 'taken A'), ('deliver B 3', 'dropped A 4'),
]
MESSAGE = [
    ('send A 0 o 0 - 4869', 'ticket A 1'), ('build A', 'sent A 3 32'), ('deliver A 3', 'taken B'),
    ('deliver A 3', 'taken B'), ('build B', 'sent B 4 32'), ('deliver B 4', 'taken A'),
    ('deliver B 4', 'taken A'), ('take B 0', 'message B 0 o 0 0 4869'),
]
CLOSING = [
    ('shutdown A', 'ok'), ('build A', 'sent A 4 20'), ('deliver A 4', 'taken B'),
    ('deliver A 4', 'taken B'), ('build B', 'sent B 5 16'), ('deliver B 5', 'answer A 5 16'),
    ('deliver B 5', 'answer A 6 16'), ('deliver A 5', 'taken B'), ('deliver A 5', 'dropped B 4'),
]
CLOSED_REPORT = ['end A Closed Completed', 'numbered A 1', 'end B Closed Completed', 'handed B 0 o 0']
case('opening, a message and closing, every packet twice', OPENING + MESSAGE + CLOSING, CLOSED_REPORT,
     {('B', 4): '03000014 00000064 0000fffe 0000 0001 00000064'})


def with_strangers():
    """The same with a stranger's packet after each line from B's COOKIE ACK to its SHUTDOWN ACK."""
    steps, on = [], False
    for line, outcome in OPENING + MESSAGE + CLOSING:
        steps.append((line, outcome))
        on = on or line == 'deliver B 3'
        if on:
            steps += [(foreign(y, 305419896, HI), 'dropped %s 3' % y) for y in 'AB']
        on = on and outcome != 'sent B 5 16'
    return steps


case('the same with strangers between', with_strangers(), CLOSED_REPORT)

case('one message over', [
    ('pair 1500 1400 65536 1 data', None), ('send A 0 o 0 - 4869', 'refused 7'), (OPEN, 'ok'),
    ('send A 0 o 0 - 4869', 'ticket A 1'), ('build A', 'sent A 1 32'), ('deliver A 1', 'taken B'),
    ('take B 0', 'message B 0 o 0 0 4869'), ('deliver A 1', 'taken B'), ('take B 0', 'empty B 0'),
    ('deliver A 2', 'absent'), ('build A', 'quiet A'),
], ['end A Established -', 'numbered A 1', 'end B Established -', 'handed B 0 o 0'], {('A', 1): HI})
case('a pair alone', [('pair 1500 1400 65536 1 data', None)], ['end A Closed -', 'end B Listen -'])

case('TSNs wrap', [
    ('pair 1500 1400 65536 1 data', None), ('connect 7 4294967295', 'ok'), ('build A', 'sent A 1 32'),
    ('draw 9 500', 'ok'), ('deliver A 1', 'answer B 1 108'), ('deliver B 1', 'taken A'),
    ('build A', 'sent A 2 88'), ('deliver A 2', 'taken B'), ('build B', 'sent B 2 16'),
    ('deliver B 2', 'taken A'), ('send A 0 o 0 - 61', 'ticket A 1'), ('build A', 'sent A 3 32'),
    ('send A 0 o 0 - 62', 'ticket A 2'), ('build A', 'sent A 4 32'), ('deliver A 4', 'taken B'),
    ('build B', 'sent B 3 32'), ('deliver A 3', 'taken B'), ('build B', 'sent B 4 28'),
    ('take B 0', 'message B 0 o 0 0 61'), ('take B 0', 'message B 0 o 1 0 62'),
    ('deliver A 4', 'taken B'), ('build B', 'sent B 5 32'),
], None, {('A', 3): '00030011 ffffffff 0000 0000 00000000 61000000',
          ('A', 4): '00030011 00000000 0000 0001 00000000 62000000',
          ('B', 3): '03000014 fffffffe 0000ffff 0001 0000 0002 0002',
          ('B', 4): '03000010 00000000 0000fffe 0000 0000',
          ('B', 5): '03000014 00000000 00010000 0000 0001 00000000'})

case('twenty packets over the wrap of TSNs, from last to first, each twice', [
    ('pair 1500 1400 65536 1 data', None), ('connect 7 4294967290', 'ok'), ('build A', 'sent A 1 32'),
    ('draw 9 500', 'ok'), ('deliver A 1', 'answer B 1 108'), ('deliver B 1', 'taken A'),
    ('build A', 'sent A 2 88'), ('deliver A 2', 'taken B'), ('build B', 'sent B 2 16'),
    ('deliver B 2', 'taken A')]
    + [step for n in range(1, 21) for step in
       (('send A 0 o 0 - %02x' % n, 'ticket A %d' % n), ('build A', 'sent A %d 32' % (n + 2)))]
    + [('deliver A %d' % n, 'taken B') for n in range(22, 2, -1) for _ in range(2)]
    + [('build B', 'sent B 3 92')]
    + [('take B 0', 'message B 0 o %d 0 %02x' % (n, n + 1)) for n in range(20)],
     ['end A Established -', 'numbered A ' + ' '.join(map(str, range(1, 21))),
      'end B Established -', 'handed B 0 o ' + ' '.join(map(str, range(20)))],
     {('B', 3): '03000050 0000000d 0000ffec 0000 0010 ' + ' '.join('%08x' % (n % 2**32) for n in range(13, -3, -1))})


def text(n, start=0):
    return bytes((start + i) % 251 for i in range(n)).hex()


case('fragments, a gap, a duplicate', [
    ('pair 576 500 65536 1 data', None), (OPEN, 'ok'), ('send A 0 o 0 - ' + text(1100), 'ticket A 1'),
    ('build A', 'sent A 1 528'), ('build A', 'sent A 2 528'), ('build A', 'sent A 3 128'),
    ('deliver A 3', 'taken B'), ('deliver A 1', 'taken B'), ('build B', 'sent B 1 32'),
    ('deliver A 3', 'taken B'), ('build B', 'sent B 2 36'), ('take B 0', 'empty B 0'),
    ('deliver A 2', 'taken B'), ('take B 0', 'message B 0 o 0 0 ' + text(1100)),
], None, {('B', 1): '03000014 00000001 0000fda8 0001 0000 0002 0002',
          ('B', 2): '03000018 00000001 0000fda8 0001 0001 0002 0002 00000003'})

UNKNOWN = [('pair 1500 1400 65536 1 data', None), (OPEN, 'ok')]
case('unknown chunk, drop the rest', UNKNOWN + [
    (foreign('B', 2, '3f000004', HI), 'taken B'), ('take B 0', 'empty B 0'), ('build B', 'quiet B')])
case('unknown chunk, drop the rest and report', UNKNOWN + [
    (foreign('B', 2, '7f000004', HI), 'taken B'), ('take B 0', 'empty B 0'), ('build B', 'sent B 1 24'),
], None, {('B', 1): '0900000c 0006 0008 7f000004'})
case('unknown chunk, skip', UNKNOWN + [
    (foreign('B', 2, '80000004', HI), 'taken B'), ('take B 0', 'message B 0 o 0 0 4869'),
    ('build B', 'sent B 1 28')])
case('unknown chunk, skip and report', UNKNOWN + [
    (foreign('B', 2, 'ff000004', HI), 'taken B'), ('take B 0', 'message B 0 o 0 0 4869'),
    ('build B', 'sent B 1 40')], None, {('B', 1): '0900000c 0006 0008 ff000004 03000010 00000001 00010000 00000000'})
case('no byte at all', UNKNOWN + [('foreign B -', 'dropped B 1')])
case('padding missing behind a COOKIE ACK', UNKNOWN + [
    (foreign('B', 2, '0b000004 00030011 00000001 00000000 00000000 48'), 'dropped B 1')])
case('a heartbeat answered', UNKNOWN + [
    (foreign('B', 2, '04000008 01020304'), 'taken B'), ('build B', 'sent B 1 20')], None,
    {('B', 1): '05000008 01020304'})

TIMES = [0, 1000, 3000, 7000, 15000, 31000, 63000, 123000, 183000]
case('an INIT that nobody answers', [('pair 1500 1400 65536 1 data', None), ('connect 7 100', 'ok')]
     + [step for n, t in enumerate(TIMES, 1) for step in
        (('at %d' % t, 'ok'), ('build A', 'sent A %d 32' % n), ('build A', 'quiet A'))]
     + [('at 242999', 'ok'), ('build A', 'quiet A'), ('at 243000', 'ok')],
     ['end A Closed TimedOut', 'end B Listen -'])
COOKIE = [('pair 1500 1400 65536 1 data', None), ('connect 7 100', 'ok'), ('build A', 'sent A 1 32'),
          ('draw 9 500', 'ok'), ('deliver A 1', 'answer B 1 108'), ('deliver B 1', 'taken A'),
          ('build A', 'sent A 2 88')]
case('a cookie past its life', COOKIE + [
    ('at 60001', 'ok'), ('deliver A 2', 'answer B 2 24'), ('deliver B 2', 'taken A')],
    ['end A Closed StaleCookie', 'end B Listen -'], {('B', 2): '0900000c 0003 0008 000003e8'})
case('a cookie at its life', COOKIE + [('at 60000', 'ok'), ('deliver A 2', 'taken B')])
case('two INIT ACKs, the second first', [
    ('pair 1500 1400 65536 1 data', None), ('connect 7 100', 'ok'), ('build A', 'sent A 1 32'),
    ('draw 9 500', 'ok'), ('deliver A 1', 'answer B 1 108'), ('draw 11 600', 'ok'),
    ('deliver A 1', 'answer B 2 108'), ('deliver B 2', 'taken A'), ('deliver B 1', 'dropped A 4'),
    ('build A', 'sent A 2 88'), ('deliver A 2', 'taken B'),
    (foreign('B', 11, HI.replace('00000001', '00000064', 1)), 'taken B'),
    (foreign('B', 9, HI), 'dropped B 3')])
case('sent again', [
    ('pair 1500 1400 65536 1 data', None), (OPEN, 'ok'), ('send A 0 o 0 - 4869', 'ticket A 1'),
    ('build A', 'sent A 1 32'), ('at 1000', 'ok'), ('build A', 'sent A 2 32')], None,
    {('A', 1): HI, ('A', 2): HI})

case('both options in the opening', [
    ('pair 1500 1400 65536 1 data-pr', None), ('connect 7 100', 'ok'), ('build A', 'sent A 1 44'),
    ('draw 9 500', 'ok'), ('deliver A 1', 'answer B 1 120')], None,
    {('A', 1): '0100001d 00000007 00010000 0001 0001 00000064 c0000004 80080005 c0000000'})
ABANDONED = [('pair 1500 1400 65536 1 data-pr', None), (OPEN, 'ok')] + [
    step for n, letter in enumerate(('61', '62', '63'), 1) for step in
    (('send A 0 o 0 - ' + letter, 'ticket A %d' % n), ('build A', 'sent A %d 32' % n))] + [
    ('deliver A 2', 'taken B')]
case('three abandoned, one arrived', ABANDONED + [
    ('abandon A 1', 'fate A 2'), ('abandon A 2', 'fate A 2'), ('abandon A 3', 'fate A 2'),
    ('build A', 'sent A 4 24'), ('deliver A 4', 'taken B'), ('take B 0', 'message B 0 o 1 0 62'),
    ('take B 0', 'empty B 0'), ('build B', 'sent B 1 28'),
], ['end A Established -', 'numbered A 1 2 3', 'abandoned A 1 2 3', 'end B Established -', 'handed B 0 o 1'],
    {('A', 4): 'c000000c 00000003 0000 0002', ('B', 1): '03000010 00000003 00010000 0000 0000'})
case('two abandoned about one acknowledged', ABANDONED + [
    ('build B', 'sent B 1 32'), ('deliver B 1', 'taken A'), ('abandon A 1', 'fate A 2'),
    ('abandon A 2', 'fate A 3'), ('abandon A 3', 'fate A 2'), ('build A', 'sent A 4 24'),
    ('deliver A 4', 'taken B'), ('build B', 'sent B 2 28'), ('deliver B 2', 'taken A'),
    ('build A', 'sent A 5 24'), ('deliver A 5', 'taken B'), ('build B', 'sent B 3 28'),
    ('take B 0', 'message B 0 o 1 0 62'), ('take B 0', 'empty B 0'),
], ['end A Established -', 'numbered A 1 2 3', 'abandoned A 1 3', 'end B Established -', 'handed B 0 o 1'],
    {('A', 4): 'c000000c 00000001 0000 0000', ('A', 5): 'c000000c 00000003 0000 0002',
     ('B', 2): '03000010 00000002 0000ffff 0000 0000'})
case('past its time before it was sent', [
    ('pair 1500 1400 65536 1 data-pr', None), (OPEN, 'ok'), ('send A 0 o 0 500 61', 'ticket A 1'),
    ('at 500', 'ok'), ('build A', 'quiet A'), ('abandon A 1', 'fate A 1'), ('abandon A 9', 'fate A 4'),
], ['end A Established -', 'end B Established -'])
case('a late packet before the FORWARD', [
    ('pair 1500 1400 65536 1 data-pr', None), (OPEN, 'ok'), ('send A 0 o 0 - 61', 'ticket A 1'),
    ('build A', 'sent A 1 32'), ('abandon A 1', 'fate A 2'), ('build A', 'sent A 2 24'),
    ('deliver A 1', 'taken B'), ('take B 0', 'message B 0 o 0 0 61'), ('build B', 'sent B 1 28'),
    ('deliver A 2', 'taken B'), ('build B', 'sent B 2 28'),
], ['end A Established -', 'numbered A 1', 'abandoned A 1', 'end B Established -', 'handed B 0 o 0'])

case('I-DATA abandoned in part', [
    ('pair 576 500 65536 1 idata-pr', None), (OPEN, 'ok'), ('send A 0 o 0 - ' + text(1500), 'ticket A 1'),
    ('build A', 'sent A 1 532'), ('build A', 'sent A 2 532'), ('deliver A 1', 'taken B'),
    ('deliver A 2', 'taken B'), ('build B', 'sent B 1 28'), ('deliver B 1', 'taken A'),
    ('abandon A 1', 'fate A 2'), ('build A', 'sent A 3 28'), ('deliver A 3', 'taken B'),
    ('take B 0', 'empty B 0'), ('send A 0 o 0 - 61', 'ticket A 2'), ('build A', 'sent A 4 36'),
    ('deliver A 4', 'taken B'), ('take B 0', 'message B 0 o 1 0 61'),
], None, {('A', 3): 'c2000010 00000003 0000 0000 00000000',
          ('A', 4): '40030015 00000004 0000 0000 00000001 00000000 61000000'})
case('two streams take turns', [
    ('pair 576 500 65536 2 idata', None), (OPEN, 'ok'), ('send A 0 o 0 - ' + text(1000), 'ticket A 1'),
    ('send A 1 o 0 - ' + text(1000), 'ticket A 2'), ('build A', 'sent A 1 532'),
    ('build A', 'sent A 2 532'), ('build A', 'sent A 3 532'), ('build A', 'sent A 4 532')], None, None,
    [('A', 1, '40020208 00000001 0000 0000 00000000 00000000'),
     ('A', 2, '40020208 00000002 0001 0000 00000000 00000000'),
     ('A', 3, '40010208 00000003 0000 0000 00000000 00000001'),
     ('A', 4, '40010208 00000004 0001 0000 00000000 00000001')])
for mode, init, ack in (('idata', 40, 116), ('idata-pr', 44, 120)):
    case('the opening in ' + mode, [
        ('pair 1500 1400 65536 1 ' + mode, None), ('connect 7 100', 'ok'), ('build A', 'sent A 1 %d' % init),
        ('draw 9 500', 'ok'), ('deliver A 1', 'answer B 1 %d' % ack)])
case('the INIT with both options', [
    ('pair 1500 1400 65536 1 idata-pr', None), ('connect 1 1', 'ok'), ('build A', 'sent A 1 44')], None,
    {('A', 1): '0100001f 00000001 00010000 0001 0001 00000001 c0000004 80080007 40c0c2 00'})
case('a number as far ahead as one may be, and then one behind it', [
    ('pair 1500 1400 65536 1 idata-pr', None), (OPEN, 'ok'),
    (foreign('B', 2, 'c2000010 00000001 0000 0000 7fffffff'), 'taken B'),
    (foreign('B', 2, 'c2000010 00000002 0000 0000 ffffffff'), 'taken B'),
    (foreign('B', 2, '40030015 00000003 0000 0000 80000000 00000000 61000000'), 'taken B'),
    ('take B 0', 'empty B 0')])

case('aborted by the user', [
    ('pair 1500 1400 65536 1 data', None), (OPEN, 'ok'), ('abort A 00', 'answer A 1 24'),
    ('deliver A 1', 'taken B'), ('deliver A 1', 'dropped B 4'),
], ['end A Closed AbortedHere', 'end B Closed Aborted'], {('A', 1): '06000009 000c 0005 00000000'})
case('a DATA without data', UNKNOWN + [
    (foreign('B', 2, '00030010 00000064 0000 0000 00000000'), 'answer B 1 24')],
    ['end A Established -', 'end B Closed AbortedHere'], {('B', 1): '0600000c 0009 0008 00000064'})
case('an INIT to a closed end', [
    ('pair 1500 1400 65536 1 data', None),
    (foreign('A', 0, '01000014 00000005 00010000 0001 0001 00000001'), 'answer A 1 16'),
], ['end A Closed -', 'end B Listen -'], {('A', 1): '06000004'})
case('closing waits for data', [
    ('pair 1500 1400 65536 1 data', None), (OPEN, 'ok'), ('send A 0 o 0 - 61', 'ticket A 1'),
    ('build A', 'sent A 1 32'), ('shutdown A', 'ok'), ('build A', 'quiet A'), ('deliver A 1', 'taken B'),
    ('build B', 'sent B 1 28'), ('deliver B 1', 'taken A'), ('build A', 'sent A 2 20')])
case('a full buffer', [
    ('pair 1500 1400 65536 1 data', None), (OPEN, 'ok'), ('send A 0 o 0 - ' + text(65536), 'ticket A 1')]
    + [('build A', 'sent A %d 1428' % n) for n in range(1, 47)] + [
    ('build A', 'sent A 47 1164'), ('send A 0 o 0 - 61', 'ticket A 2'), ('build A', 'quiet A')]
    + [('deliver A %d' % n, 'taken B') for n in range(1, 48)] + [
    ('build B', 'sent B 1 28'), ('deliver B 1', 'taken A'), ('build A', 'sent A 48 32'),
    ('deliver A 48', 'taken B'), ('build B', 'sent B 2 28'),
    ('take B 0', 'message B 0 o 0 0 ' + text(65536)), ('deliver A 48', 'taken B'),
    ('take B 0', 'message B 0 o 1 0 61')], None,
    {('B', 1): '03000010 0000002f 00000000 0000 0000', ('B', 2): '03000010 0000002f 00000000 0000 0000'})
case('the longest message in the smallest fragments', [
    ('pair 1500 4 65536 1 data', None), (OPEN, 'ok'), ('send A 0 o 0 - ' + text(65537), 'refused 3'),
    ('send A 0 o 0 - -', 'refused 2'), ('send A 0 o 0 - ' + text(65536), 'ticket A 1')]
    + [('build A', 'sent A %d 1492' % n) for n in range(1, 222)] + [
    ('build A', 'sent A 222 %d' % (12 + 20 * (16384 - 221 * 74))), ('build A', 'quiet A')], None, None,
    [('A', 222, '00000014 00003fe3')])


def many_entries():
    steps = [('pair 576 500 65536 32 idata-pr', None), (OPEN, 'ok')]
    for stream in range(32):
        steps += [('send A %d o 0 - 61' % stream, 'ticket A %d' % (2 * stream + 1)),
                  ('send A %d u 0 - 62' % stream, 'ticket A %d' % (2 * stream + 2))]
    steps += [('build A', 'sent A 1 564'), ('build A', 'sent A 2 564'), ('build A', 'sent A 3 444')]
    steps += [('abandon A %d' % n, 'fate A 2') for n in range(1, 65)]
    steps += [('build A', 'sent A 4 532'), ('deliver A 4', 'taken B')]
    for stream in range(32):     # the next number of each is 1
        steps += [('send A %d o 0 - 63' % stream, 'ticket A %d' % (65 + stream))]
    steps += [('build A', 'sent A 5 564'), ('build A', 'sent A 6 228'), ('deliver A 5', 'taken B'), ('deliver A 6', 'taken B')]
    return steps + [('take B %d' % stream, 'message B %d o 1 0 63' % stream) for stream in range(32)]


case('a FORWARD with every entry', many_entries(), None, None, [('A', 4, 'c2000208 00000040 00000000 00000000')])


WAITING = [('pair 1500 1400 65536 1 data delay', None), (OPEN, 'ok'), ('send A 0 o 0 - 61', 'ticket A 1'), ('build A', 'sent A 1 32')]
SECOND = [('send A 0 o 0 - 62', 'ticket A 2'), ('build A', 'sent A 2 32')]
case('a SACK waits 200 ms', WAITING + [
    ('deliver A 1', 'taken B'), ('build B', 'quiet B'), ('at 199', 'ok'), ('build B', 'quiet B'), ('at 200', 'ok'),
    ('build B', 'sent B 1 28')])
case('the second packet asks for the SACK', WAITING + SECOND + [
    ('deliver A 1', 'taken B'), ('deliver A 2', 'taken B'), ('build B', 'sent B 1 28')])
case('a gap asks for the SACK', WAITING + SECOND + [('deliver A 2', 'taken B'), ('build B', 'sent B 1 32')])
DELAYED = [('pair 1500 1400 65536 1 data delay', None), (OPEN, 'ok')]
case('the flag I asks for the SACK', DELAYED + [
    (foreign('B', 2, HI.replace('0003', '000b', 1)), 'taken B'), ('build B', 'sent B 1 28')])
case('what is passed over asks for no SACK', DELAYED + [
    (foreign('B', 2, '80000004', HI), 'taken B'), ('build B', 'quiet B'), ('at 200', 'ok'), ('build B', 'sent B 1 28')])
case('what is reported goes before the SACK that waits', DELAYED + [
    (foreign('B', 2, 'ff000004', HI), 'taken B'), ('build B', 'sent B 1 24')])
case('a FORWARD asks for the first SACK', [
    ('pair 1500 1400 65536 1 data-pr delay', None), (OPEN, 'ok'), ('send A 0 o 0 - 61', 'ticket A 1'),
    ('build A', 'sent A 1 32'), ('abandon A 1', 'fate A 2'), ('build A', 'sent A 2 24'), ('deliver A 1', 'taken B'),
    ('take B 0', 'message B 0 o 0 0 61'), ('build B', 'quiet B'), ('deliver A 2', 'taken B'), ('build B', 'sent B 1 28')])
case('closing waits for the SACK that waits', WAITING + [
    ('shutdown A', 'ok'), ('build A', 'quiet A'), ('deliver A 1', 'taken B'), ('build B', 'quiet B'),
    ('deliver B 1', 'absent'), ('build A', 'quiet A')], ['end A ShutdownPending -', 'numbered A 1', 'end B Established -', 'handed B 0 o 0'])
case('the closing script with delay', [('pair 1500 1400 65536 1 data delay', None)] + (OPENING + MESSAGE + CLOSING)[1:],
     CLOSED_REPORT, {('B', 4): '03000014 00000064 0000fffe 0000 0001 00000064'})


def cut_forward():
    steps = [('pair 576 500 65536 1024 data-pr', None), (OPEN, 'ok')]
    steps += [('send A %d o 0 - 61' % stream, 'ticket A %d' % (stream + 1)) for stream in range(200)]
    steps += [('build A', 'sent A %d 572' % n) for n in range(1, 8)] + [('build A', 'sent A 8 92')]
    steps += [('abandon A %d' % ticket, 'fate A 2') for ticket in range(1, 201)]
    return steps + [('build A', 'sent A 9 576'), ('deliver A 9', 'taken B'), ('build B', 'sent B 1 28'),
                    ('deliver B 1', 'taken A'), ('build A', 'sent A 10 264')]


case('a FORWARD of what fits, and then the rest', cut_forward(), None, None,
     [('A', 9, 'c0000234 0000008b 0000 0000'), ('A', 10, 'c00000fc 000000c8 008b 0000')])


# ---- Two ends that differ

PAIR = ('pair 1500 1400 65536 1 data', None)


def opened(*lengths):
    """The packets of an opening, by their lengths: INIT, INIT ACK, COOKIE ECHO, COOKIE ACK."""
    return [('connect 7 100', 'ok'), ('build A', 'sent A 1 %d' % lengths[0]), ('draw 9 500', 'ok'), ('deliver A 1', 'answer B 1 %d' % lengths[1]),
            ('deliver B 1', 'taken A'), ('build A', 'sent A 2 %d' % lengths[2]), ('deliver A 2', 'taken B'),
            ('build B', 'sent B 2 %d' % lengths[3]), ('deliver B 2', 'taken A')]


case('streams: the lesser of what one end asks for and the other accepts', [
    PAIR, ('options A streams 3 7', None), ('options B streams 2 9', None), (OPEN, 'refused 1')] + opened(32, 108, 88, 16) + [
    ('send A 2 o 0 - 61', 'ticket A 1'), ('send A 3 o 0 - 61', 'refused 1'), ('send B 1 o 0 - 62', 'ticket B 1'),
    ('send B 2 o 0 - 62', 'refused 1'), ('build A', 'sent A 3 32'), ('deliver A 3', 'taken B'), ('take B 2', 'message B 2 o 0 0 61'),
    ('build B', 'sent B 3 48'), ('deliver B 3', 'taken A'), ('take A 1', 'message A 1 o 0 0 62')],
     None, {('A', 1): '01000014 00000007 00010000 0003 0007 00000064'}, [('B', 1, '02000060 00000009 00010000 0002 0009 000001f4 0007004c')])
case('opened without packets where each takes the other to be as itself', [
    PAIR, ('options A streams 3 7', None), ('', None), ('# three each way', None), ('options B streams 9 3', None), (OPEN, 'ok'), (OPEN, 'refused 1'),
    ('send A 2 o 0 - 61', 'ticket A 1'), ('send A 3 o 0 - 61', 'refused 1'), ('send B 2 o 0 - 62', 'ticket B 1'), ('send B 3 o 0 - 62', 'refused 1')])
case('a format and partial reliability where both ask for them', [
    PAIR, ('options A mode idata-pr', None), ('options B mode data-pr', None), (OPEN, 'refused 1')] + opened(44, 120, 88, 16) + [
    ('send A 0 o 0 - 61', 'ticket A 1'), ('build A', 'sent A 3 32'), ('abandon A 1', 'fate A 2'), ('build A', 'sent A 4 24')],
     None, {('A', 1): '0100001f 00000007 00010000 0001 0001 00000064 c0000004 80080007 40c0c2 00', ('A', 4): 'c000000c 00000064 0000 0000'})
case('I-DATA without partial reliability', [
    PAIR, ('options both mode idata-pr', None), ('options B mode idata', None), (OPEN, 'refused 1')] + opened(44, 116, 88, 16) + [
    ('send A 0 o 0 - 61', 'ticket A 1'), ('build A', 'sent A 3 36'), ('abandon A 1', 'fate A 5')])
case('neither asks for what the pair has', [
    ('pair 1500 1400 65536 1 idata-pr delay', None), ('options both mode data', None), (OPEN, 'ok'), ('send A 0 o 0 - 61', 'ticket A 1'),
    ('build A', 'sent A 1 32'), ('deliver A 1', 'taken B'), ('build B', 'quiet B')])
case('packets and fragments of its own size', [
    PAIR, ('options A fragment 500 limit 576', None), (OPEN, 'ok'), ('send A 0 o 0 - ' + text(1100), 'ticket A 1'),
    ('send B 0 o 0 - ' + text(1100), 'ticket B 1'), ('build A', 'sent A 1 528'), ('build A', 'sent A 2 528'), ('build A', 'sent A 3 128'),
    ('build B', 'sent B 1 1128')])
case('a buffer of its own', [
    PAIR, ('options B buffer 131072', None), ('connect 7 100', 'ok'), ('build A', 'sent A 1 32'), ('draw 9 500', 'ok'),
    ('deliver A 1', 'answer B 1 108'), ('deliver B 1', 'taken A'), ('build A', 'sent A 2 88'), ('deliver A 2', 'taken B'), ('build B', 'sent B 2 16'),
    ('deliver B 2', 'taken A'), ('send A 0 o 0 - 4869', 'ticket A 1'), ('build A', 'sent A 3 32'), ('deliver A 3', 'taken B'), ('build B', 'sent B 3 28')],
     None, {('B', 3): '03000010 00000064 0001fffe 0000 0000'}, [('B', 1, '02000060 00000009 00020000')])
case('SACKs that wait at one end', [
    PAIR, ('options both delay', None), ('options A limit 600 fragment 500', None), (OPEN, 'ok'), ('send A 0 o 0 - 61', 'ticket A 1'),
    ('build A', 'sent A 1 32'), ('deliver A 1', 'taken B'), ('build B', 'quiet B'), ('at 200', 'ok'), ('build B', 'sent B 1 28')])
case('the same at the other end alone', [
    PAIR, ('options A delay', None), (OPEN, 'ok'), ('send A 0 o 0 - 61', 'ticket A 1'), ('build A', 'sent A 1 32'), ('deliver A 1', 'taken B'),
    ('build B', 'sent B 1 28'), ('send B 0 o 0 - 62', 'ticket B 1'), ('build B', 'sent B 2 32'), ('deliver B 2', 'taken A'), ('build A', 'quiet A')])
case('the later of two that set the same', [
    PAIR, ('options A limit 5 limit 600 fragment 500', None), ('options both fragment 4', None), ('options A fragment 500', None), (OPEN, 'ok'),
    ('send A 0 o 0 - ' + text(501), 'ticket A 1'), ('build A', 'sent A 1 %d' % (12 + 516 + 20))])
for lines, kind in (
        (('options A delay',), 2), ((PAIR[0], 'at 1', 'options A delay'), 2),
        ((PAIR[0], 'open', 'options A delay'), 2), ((PAIR[0], 'options'), 2), ((PAIR[0], 'options A'), 2), ((PAIR[0], 'options C delay'), 2),
        ((PAIR[0], 'options a delay'), 2), ((PAIR[0], 'options A limt 600'), 2), ((PAIR[0], 'options A limit'), 2),
        ((PAIR[0], 'options A streams 3'), 2), ((PAIR[0], 'options A limit 600 5'), 2), ((PAIR[0], 'options A  delay'), 2),
        ((PAIR[0], 'options A delay '), 2), ((PAIR[0], ' options A delay'), 2), ((PAIR[0], 'options A limit  delay'), 4),
        ((PAIR[0], 'options A limit delay'), 4), ((PAIR[0], 'options A limit 01500'), 4), ((PAIR[0], 'options A limit 65536'), 4),
        ((PAIR[0], 'options A buffer 4294967296'), 4), ((PAIR[0], 'options A mode foo'), 4), ((PAIR[0], 'options A limit 600'), 4),
        ((PAIR[0], 'options both limit 600 fragment 568'), None), ((PAIR[0], 'options both limit 600 fragment 569'), 4),
        ((PAIR[0], 'options A fragment 500', 'options A limit 600'), None), ((PAIR[0], 'options B streams 1 0'), 4),
        ((PAIR[0], 'options B streams 1025 1'), 4), ((PAIR[0], 'options A delay delay delay'), None),
        ((PAIR[0], 'options A delay', PAIR[0]), 5), ((PAIR[0], 'options A fragment 500', 'options both limit 600'), 4),
        ((PAIR[0], 'options A delay limit 600 ' + '0' * 140000), 1), ((PAIR[0], 'options'.ljust(140001)), 1)):
    fault(lines, kind)


def swapped_pairs(count, buffer, take_each):
    """One-byte messages, each pair delivered the second first, then all again."""
    steps, packet = [('pair 1500 1400 %d 1 data' % buffer, None), (OPEN, 'ok')], 0
    for n in range(1, count + 1):
        steps += [('send A 0 o 0 - %02x' % (n % 256), 'ticket A %d' % n), ('build A', 'sent A %d 32' % n)]
        if n % 2 and n < count:
            continue
        for m in ((n, n - 1) if n % 2 == 0 else (n,)):
            steps += [('deliver A %d' % m, 'taken B')]
        packet += 1
        steps += [('build B', None), ('deliver B %d' % packet, 'taken A')]
    steps += [('deliver A %d' % n, 'taken B') for n in range(count, 0, -1)]
    if take_each:
        steps += [('take B 0', 'message B 0 o %d 0 %02x' % (n, (n + 1) % 256)) for n in range(count)]
    report = ['end A Established -', 'numbered A ' + ' '.join(map(str, range(1, count + 1))),
              'end B Established -', 'handed B 0 o ' + ' '.join(map(str, range(count)))]
    return steps + [('take B 0', 'empty B 0')] * take_each, report


if 'long' in sys.argv[1:]:
    case('numbers wrap once, the last two swapped', *swapped_pairs(65_537, 131_072, True))
    case('numbers wrap twice', *swapped_pairs(131_073, 262_144, False))


def check(name, steps, report, bags, some):
    out, wrong = [], []
    script = model.Script(out.append)
    for line, outcome in steps:
        del out[:]
        script.line(line.encode(), len(line) + 1)
        if outcome is not None and out != [outcome]:
            wrong.append('%s: %s: %s, not %s' % (name, line[:60], out, outcome[:80]))
    del out[:]
    script.end()
    if report is not None and out != report:
        wrong.append('%s: report %s' % (name, [line[:200] for line in out]))
    for (x, n), chunks in bags.items():
        if script.pair.bags[x][n - 1][12:] != unhex(chunks):
            wrong.append('%s: packet %s %d is %s' % (name, x, n, script.pair.bags[x][n - 1].hex()))
    for x, n, start in some:
        if not script.pair.bags[x][n - 1][12:].startswith(unhex(start)):
            wrong.append('%s: packet %s %d is %s' % (name, x, n, script.pair.bags[x][n - 1].hex()))
    return wrong


def main():
    wrong = [line for one in CASES for line in check(*one)]
    wrong += ['%s: %s, not %s' % (text[-70:], found, wanted) for text, wanted in FAULTS
              for found in [model.run(text, lambda line: None)] if found != wanted]
    print('\n'.join(wrong + ['%d cases, %d differences' % (len(CASES) + len(FAULTS), len(wrong))]))
    return 1 if wrong else 0


if __name__ == '__main__':
    sys.exit(main())
