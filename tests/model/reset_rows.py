#!/usr/bin/env python3
"""Rows of stream resets (RFC 6525) at two ends, with known answers, run on the model.

Prints what differs and how many passed; status 1 where one differs. `reset_rows.py --rows` prints those that are scripts as cases of
crates/sctp_rows; `reset_cases.py` has those of one end.
"""

import sys

import progress_rows
from model import Script
from reset_row import BOTH, PAIR, ROWS, Row, data, packet, request, reset_begins, responses, sack


# ---- Agreeing ----

def agreeing():
    for mode, length, parameters in (
            ('data', 40, '80080005 82000000'), ('data-pr', 44, 'c0000004 80080006 82c00000'),
            ('idata', 40, '80080006 40820000'), ('idata-pr', 44, 'c0000004 80080008 4082c0c2')):
        made = Row('an end that may reset its streams says so: ' + mode, mode=mode, opens=False).says('connect 7 100', 'ok')
        value = '%04x 00000007 00010000 0001 0001 00000064 ' % {'data': 25, 'data-pr': 30, 'idata': 26, 'idata-pr': 32}[mode]
        made.build('A', length, '0100' + value + parameters).says('draw 9 500', 'ok')
        made.says('deliver A 1', 'answer B 1 %d' % (length + 76)).says('deliver B 1', 'taken A').sent['B'] = 1
        made.build('A', 88).comes('A', 2).build('B', 16).comes('B', 2).says('reset A 0', 'ok').says('reset B 0', 'ok').says('reset A 1', 'refused 2')
        made.build('A', 36, request(100, 499, 99, 0)).build('B', 36, request(500, 99, 499, 0)).comes('B').comes('A')
    for named, words in (('the caller', 'options A reset'), ('the listener', 'options B reset')):
        made = Row('%s alone may reset its streams: neither does' % named, options=(words,), opens=False).says('open', 'refused 1')
        made.says('connect 7 100', 'ok').build('A', 40 if 'A' in words else 32).says('draw 9 500', 'ok')
        made.says('deliver A 1', 'answer B 1 %d' % (108 if 'A' in words else 116)).says('deliver B 1', 'taken A').sent['B'] = 1
        made.build('A', 88).comes('A', 2).build('B', 16).comes('B', 2).says('reset A 0', 'refused 1').says('reset B 0', 'refused 1')
        made.says('reset A 9', 'refused 1').says('resets A', 'no-reset A').says('resets B', 'no-reset B').build('A').build('B')
    made = Row('a RE-CONFIG where it wasn\'t agreed on is skipped, and not reported', options=('options both delay',))
    made.foreign('B', request(1, 0, 0, 0)).build('B').says('resets B', 'no-reset B').foreign('B', responses((1, 1))).build('B')
    for line in ('reset A 0', 'resets A'):
        Row('without a line options there is no such line: ' + line, options=()).says(line, 'fault 2')
    for kind, lines in ((3, ('reset A', 'reset A 0 0', 'resets', 'resets A 0')), (4, ('reset C 0', 'reset A 65536', 'reset A -1', 'resets a'))):
        for line in lines:
            Row('a wrong line: ' + line, options=('options A delay',)).says(line, 'fault %d' % kind)
    Row('the line of a stream that can\'t be', options=('options A delay',)).says('reset A 65535', 'refused 1').says('resets A', 'no-reset A')


# ---- A stream is reset, and used again ----

def again():
    made = reset_begins('a stream is reset, and used again with SSN 0; its messages count on')
    made.build('A', 36, '82000016 000d0012 00000001 00000000 00000001 00000000').build('A').comes('A')
    made.says('resets B', 'reset B 0 1').says('resets B', 'no-reset B').build('B', 28, '82000010 0010000c 00000001 00000001').build('B').comes('B')
    made.send(byte='62', ticket=2).build('A', 32, '00030011 00000002 0000 0000 00000000 62000000').comes('A')
    made.message(0, 0, '61').message(0, 1, '62')
    made.goes('B', 28, sack(2, 0x10000)).says('reset A 0', 'ok').build('A', 36, request(2, 0, 2, 0)).comes('A')
    made.says('resets B', 'reset B 0 0').build('B', 28, responses((2, 1))).comes('B').send(byte='63', ticket=3).build('A', 32, data(3, 0, 0, '63'))
    made = Row('the request waits until all of the stream is acknowledged').send(ticket=1).goes('A', 32).says('reset A 0', 'ok').build('A')
    made.build('B', 28).comes('B').build('A', 36, request(1, 0, 1, 0))
    made = Row('the request waits until all of the stream is sent').send(ticket=1).says('reset A 0', 'ok').says('reset A 0', 'ok').build('A', 32, data(1, 0, 0, '61')).build('A')
    made.comes('A').build('B', 28).comes('B').build('A', 36, request(1, 0, 1, 0))
    made = reset_begins('a stream that is reset takes no message until that is done')
    made.says('send A 0 o 0 - 62', 'refused 8').build('A', 36).comes('A').says('send A 0 o 0 - -', 'refused 8').says('send A 1 o 0 - 62', 'refused 1').build('B', 28)
    made.says('send A 0 o 0 - 62', 'refused 8').comes('B').send(byte='62', ticket=2)
    made = reset_begins('the same request again has the same response, and does nothing anew')
    made.build('A', 36).comes('A').comes('A').build('B', 40, responses((1, 1), (1, 1))).says('resets B', 'reset B 0 1').says('resets B', 'no-reset B')
    made.comes('B').send(byte='62', ticket=2).goes('A', 32).comes('A', 2).build('B', 44, sack(2, 0xfffe) + responses((1, 1)))
    made.says('resets B', 'no-reset B').message(0, 0, '61').message(0, 1, '62')
    made = Row('a stream on which nothing was ever sent is reset').says('reset A 0', 'ok').build('A', 36, request(1, 0, 0, 0)).comes('A')
    made.says('resets B', 'reset B 0 0').build('B', 28, responses((1, 1))).comes('B').send(ticket=1).build('A', 32, data(1, 0, 0, '61'))
    made = Row('I-DATA: both numberings of a stream begin anew', mode='idata').send(ticket=1).send(kind='u', byte='62', ticket=2)
    made.build('A', 60).comes('A').goes('B', 28).says('reset A 0', 'ok').build('A', 36, request(1, 0, 2, 0)).comes('A').goes('B', 28)
    made.send(byte='63', ticket=3).send(kind='u', byte='64', ticket=4)
    made.build('A', 60, '40030015 00000003 0000 0000 00000000 00000000 63000000 40070015 00000004 0000 0000 00000000 00000000 64000000').comes('A')
    made.says('resets B', 'reset B 0 2').message(0, 0, '61').message(0, 0, '62', kind='u').message(0, 1, '63').message(0, 1, '64', kind='u')
    made = Row('two unordered messages wait that came before the reset, and one that came after it').send(kind='u', ticket=1).send(kind='u', byte='62', ticket=2)
    made.goes('A', 52).goes('B', 28).says('reset A 0', 'ok').goes('A', 36).goes('B', 28).send(kind='u', byte='63', ticket=3).goes('A', 32)
    made.says('resets B', 'reset B 0 2').says('resets B', 'no-reset B').message(0, '-', '61', kind='u').message(0, '-', '62', kind='u').message(0, '-', '63', kind='u')
    made = reset_begins('a reset that is told once its messages are taken')
    made.goes('A', 36).message(0, 0, '61').goes('B', 28).send(byte='62', ticket=2).goes('A', 32).message(0, 1, '62').says('resets B', 'reset B 0 0')
    made = reset_begins('two resets of a stream are told as one, behind the messages of both')
    made.goes('A', 36).goes('B', 28).send(byte='62', ticket=2).goes('A', 32).goes('B', 28).says('reset A 0', 'ok').goes('A', 36).goes('B', 28)
    made.send(byte='63', ticket=3).goes('A', 32).says('resets B', 'reset B 0 2').says('resets B', 'no-reset B')


# ---- Closing, and the states ----

def states():
    made = Row('reset in each state of an opening', opens=False).says('reset A 0', 'refused 1').says('reset B 0', 'refused 1')
    made.says('connect 7 100', 'ok').says('reset A 0', 'refused 1').build('A', 40).says('draw 9 500', 'ok').says('deliver A 1', 'answer B 1 116')
    made.says('reset B 0', 'refused 1').says('deliver B 1', 'taken A').says('reset A 0', 'refused 1').says('resets A', 'no-reset A').sent['B'] = 1
    made.build('A', 88).comes('A', 2).says('reset B 0', 'ok').build('B', 40, '0b000004' + request(500, 99, 499, 0)).comes('B')
    made.says('resets A', 'reset A 0 0').build('A', 28, responses((500, 1)))
    made = Row('a RE-CONFIG at a caller that has sent its cookie is skipped', opens=False).says('connect 7 100', 'ok').build('A', 40)
    made.says('draw 9 500', 'ok').says('deliver A 1', 'answer B 1 116').says('deliver B 1', 'taken A').sent['B'] = 1
    made.build('A', 88).comes('A', 2).says('reset B 0', 'ok').build('B', 40).says('at 1000', 'ok').build('B', 36, request(500, 99, 499, 0)).comes('B')
    made.says('resets A', 'no-reset A').comes('B', 2).says('resets A', 'reset A 0 0')
    made = reset_begins('a request is out, and its end shuts down: it isn\'t repeated, and its response still counts').build('A', 36).says('shutdown A', 'ok')
    made.says('reset A 0', 'refused 1').build('A', 20, '07000008 00000000').says('at 1000', 'ok').build('A', 20).comes('A', 2)
    made.says('resets B', 'reset B 0 1').build('B', 28, responses((1, 1))).comes('B').build('A').comes('A', 4).says('reset B 0', 'refused 1')
    made.build('B', 16, '08000004').says('resets B', 'no-reset B').says('deliver B 3', 'answer A 5 16').says('deliver A 5', 'taken B').says('reset A 0', 'refused 1')
    made = Row('a stream is reset, and its end shuts down: nothing asks any more').send(ticket=1).goes('A', 32).says('reset A 0', 'ok').says('shutdown A', 'ok')
    made.build('A').goes('B', 28).build('A', 20).comes('A').build('B', 16).says('resets B', 'no-reset B')
    made = Row('the peer shuts down while a stream is to be reset').says('reset A 0', 'ok').build('A', 36).says('shutdown B', 'ok').build('B', 20).comes('B')
    made.says('reset A 0', 'refused 1').says('at 1000', 'ok').build('A', 16, '08000004').comes('A', 1).says('resets B', 'reset B 0 0')
    made.build('B', 36, responses((1, 1)) + '07000008 00000000').comes('B')
    made.says('send A 0 o 0 - 61', 'refused 7')
    made = Row('requests that cross').says('reset A 0', 'ok').says('reset B 0', 'ok').build('A', 36, request(1, 0, 0, 0)).build('B', 36, request(1, 0, 0, 0))
    made.comes('A').comes('B').build('A', 28, responses((1, 1))).build('B', 28, responses((1, 1))).comes('A').comes('B')
    made.says('resets A', 'reset A 0 0').says('resets B', 'reset B 0 0').send(ticket=1).says('send B 0 o 0 - 61', 'ticket B 1')
    made = Row('requests that cross, one of them in progress: the other one repeats the number before it, and its number once it is performed', streams=2)
    made.send(1, ticket=1).build('A', 32, data(1, 1, 0, '61')).says('reset A 0', 'ok').says('reset B 0', 'ok')
    made.build('A', 36, request(1, 0, 1, 0)).build('B', 36, request(1, 0, 0, 0)).comes('A').says('resets B', 'no-reset B').build('B', 28, responses((1, 6)))
    made.says('at 1000', 'ok').build('B', 36, request(1, 0, 0, 0)).build('A', 56, request(1, 0, 1, 0) + data(1, 1, 0, '61')).comes('A')
    made.build('B', 44, sack(1, 0xffff) + responses((1, 6))).comes('A', 2).says('resets B', 'reset B 0 0').build('B', 28, responses((1, 1)))
    made.says('at 3000', 'ok').build('B', 36, request(1, 1, 0, 0)).comes('B').says('resets A', 'reset A 0 0')
    made.build('A', 72, responses((1, 1)) + request(1, 1, 1, 0) + data(1, 1, 0, '61')).comes('A').build('B', 48, sack(1, 0xffff, 1) + responses((1, 1))).comes('B')
    made.send(ticket=2).build('A', 32, data(2, 0, 0, '61')).says('send B 0 o 0 - 62', 'ticket B 1').build('B', 32, data(1, 0, 0, '62'))
    made = Row('a response and a request in one packet').says('reset A 0', 'ok').goes('A', 36).says('reset B 0', 'ok')
    made.build('B', 52, responses((1, 1)) + request(1, 1, 0, 0)).comes('B').says('resets A', 'reset A 0 0').build('A', 28, responses((1, 1))).comes('A')
    made.send(ticket=1).says('send B 0 o 0 - 61', 'ticket B 1')


# ---- Many streams, and a full window ----

def many():
    made = Row('300 streams: 256 in the first request, which fits the least packet, and 44 in the next', pair='pair 576 500 65536 300 data')
    for stream in range(300):
        made.says('reset A %d' % stream, 'ok')
    made.build('A', 544, request(1, 0, 0, *range(256))).build('A').comes('A').build('B', 28, responses((1, 1))).comes('B')
    made.build('A', 120, request(2, 0, 0, *range(256, 300))).comes('A').goes('B', 28).build('A')
    made.says('resets B', 'reset B 0 0').says('resets B', 'reset B 1 0').send(299, ticket=1)
    made = Row('1,024 streams at once: four requests', streams=1024)
    for stream in range(1024):
        made.says('reset A %d' % stream, 'ok')
    for n in range(4):
        made.build('A', 544, request(n + 1, 0, 0, *range(256 * n, 256 * n + 256))).build('A').comes('A').goes('B', 28, responses((n + 1, 1)))
    made.build('A').send(1023, ticket=1)
    made = Row('a message behind a full window is sent before its stream is reset', streams=2)
    made.says('send A 1 o 0 - ' + '62' * 65536, 'ticket A 1')
    for n in range(47):
        made.goes('A', 1428 if n < 46 else 12 + 16 + (65536 - 46 * 1400), None)
    made.goes('B', 28, sack(47, 0)).send(ticket=2).build('A', 32, data(48, 0, 0, '61')).says('reset A 0', 'ok').build('A').comes('A').build('B', 28, sack(47, 0)).comes('B')
    made.build('A').says('at 1000', 'ok').build('A', 32, data(48, 0, 0, '61')).says('take B 1').comes('A').build('B', 28, sack(48, 0xffff)).comes('B')
    made.build('A', 36, request(1, 0, 48, 0))
    made = Row('a stream whose message can\'t be sent isn\'t reset, and others are', streams=3)
    made.says('send A 1 o 0 - ' + '62' * 65536, 'ticket A 1')
    made.send(ticket=2).says('reset A 0', 'ok').says('reset A 2', 'ok').goes('A', 12 + 24 + 16 + 1400).says('resets B', 'reset B 2 0')


def last_numbers():
    """What differs, in words, where an end has used all sequence numbers but one: no script gets there."""
    out, wrong = [], []
    script = Script(out.append)
    for line in (PAIR % (2, 'data'), BOTH, 'open', 'reset A 0'):
        script.line(line.encode(), 0)
    resets = script.pair.ends['A'].sender.resets
    resets.made = 2**31 - 2
    for line, outcome in (('build A', 'sent A 1 36'), ('foreign A ' + packet('A', responses((2**31 - 1, 6))), 'taken A'), ('build A', 'quiet A'),
                          ('at 1000', 'ok'), ('build A', 'sent A 2 36'), ('foreign A ' + packet('A', responses((2**31 - 1, 1))), 'taken A'),
                          ('reset A 0', 'ok'), ('build A', 'quiet A'), ('at 70000', 'ok'), ('build A', 'quiet A'), ('send A 1 o 0 - 61', 'ticket A 1'),
                          ('send A 0 o 0 - 61', 'refused 8')):
        script.line(line.encode(), 0)
        if out[-1] != outcome:
            wrong.append('the last number: %s: %s, not %s' % (line[:60], out[-1], outcome))
    said = [script.pair.bags['A'][n][12:].hex() for n in (0, 1)]
    return wrong + ['the last number: %s' % one for one in said if one != request(2**31 - 1, 0, 0, 0)]


def main():
    for make in (agreeing, again, *progress_rows.MAKERS, states, many):
        make()
    if sys.argv[1:] == ['--rows']:
        for one in ROWS:
            print(one.case())
        return 0
    wrong = [line for one in ROWS for line in one.check()] + last_numbers()
    print('\n'.join(wrong + ['%d rows, %d differences' % (len(ROWS), len(wrong))]))
    return 1 if wrong else 0


if __name__ == '__main__':
    sys.exit(main())
