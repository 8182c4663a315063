#!/usr/bin/env python3
"""Rows of limits of retransmissions (RFC 7496 section 3.1), with known answers, run on the model.

Prints what differs and how many passed; status 1 where one differs. `limited_rows.py --scripts` prints the scripts of the rows that are some,
and what the model says of them; `--rows` writes these scripts as cases of crates/sctp_rows.
"""

import sys

import end
import model
import wire
from endpoint import Writer
from sender import Sender

ROWS, SCRIPTS = [], []


def row(name, found, wanted):
    ROWS.append((name, found, wanted))


# ---- Scripts: two ends ----

NAMES = {wire.SACK: 'SACK', wire.SHUTDOWN: 'SHUTDOWN'}


def told_of(packet):
    """The chunks of a packet as words."""
    words = []
    for chunk in wire.Packet(packet).chunks:
        if chunk.kind in (wire.DATA, wire.I_DATA):
            words.append(str(wire.Piece(chunk).tsn))
        elif chunk.kind in (wire.FORWARD_TSN, wire.I_FORWARD_TSN):
            words.append('forward %d' % wire.Forward(chunk).cumulative)
        else:
            words.append(NAMES.get(chunk.kind, 'type %d' % chunk.kind))
    return ', '.join(words)


HANDSHAKE = ('connect 7 1000', 'build A', 'draw 9 500', 'deliver A 1', 'deliver B 1', 'build A', 'deliver A 2', 'build B', 'deliver B 2')


class Run:
    """A script; `build` says what the packet holds. A's packets are the ones looked at."""

    def __init__(self, options, named='A', mode='data-pr', limit=1500, fragment=1400, buffer=65536, handshake=0, opening=None, streams=1, case=None):
        """`handshake`: A's COOKIE ACK comes so long after its COOKIE ECHO. `case`: its name as a case of crates/sctp_rows."""
        self.case, self.lines, self.out = case, [], []
        self.script = model.Script(self.out.append)
        self.line('pair %d %d %d %d %s' % (limit, fragment, buffer, streams, mode))
        self.line('options %s %s' % (named, options))
        for line in opening or (*HANDSHAKE[:6], 'at %d' % handshake, *HANDSHAKE[6:]):
            self.line(line)

    def line(self, text):
        self.lines.append(text)
        del self.out[:]
        self.script.line(text.encode(), len(text) + 1)
        return self.out[0] if self.out else None

    def build(self, x='A'):
        said = self.line('build ' + x)
        return told_of(self.script.pair.bags[x][-1]) if said.startswith('sent') else 'quiet'

    def at(self, moment):
        self.line('at %d' % moment)
        return self

    def send(self, data='61', until='-', stream=0):
        self.line('send A %d o 0 %s %s' % (stream, until, data))

    def sack(self, tsn, *blocks, rwnd=65536):
        return self.foreign(wire.sack_chunk(tsn, rwnd, blocks, []))

    def sacks(self, *told):
        """Several SACKs in one packet."""
        return self.foreign(*[wire.sack_chunk(tsn, 65536, blocks, []) for tsn, *blocks in told])

    def foreign(self, *chunks):
        return self.line('foreign A ' + wire.packet(5001, 5000, self.end.own_tag, chunks).hex())

    @property
    def end(self):
        return self.script.pair.ends['A']

    @property
    def next(self):
        return self.end.next_moment()

    @property
    def given_up(self):
        return list(self.end.sender.abandon_order)

    @property
    def end_marks(self):
        """The tickets of the messages whose end marks were assigned, by rising TSN."""
        return [entry.message.ticket for entry in self.end.sender.plan[1:] if entry.is_end_mark]

    def says(self, name, found, wanted):
        """A row of this run."""
        row(name, found, wanted)
        if not SCRIPTS or SCRIPTS[-1] is not self:
            SCRIPTS.append(self)


PLAIN = 'delay'          # an option, so that limits may stand in the script


# ---- Limits ----

def limits():
    run = Run(PLAIN, case='messages with limits 0 and 1 and with none, all lost: each expiry abandons one more')
    for until in ('x0', 'x1', '-'):
        run.send(until=until)
    run.says('limits 0, 1, none: all go', (run.build(), run.next), ('1000, 1001, 1002', 1000))
    run.says('before the timer', run.at(999).build(), 'quiet')
    run.says('the first expiry', (run.at(1000).build(), run.given_up, run.next), ('forward 1000, 1001, 1002', [1], 3000))
    run.says('between two expiries', (run.at(1001).build(), run.at(2999).build()), ('quiet', 'quiet'))
    run.says('the second', (run.at(3000).build(), run.given_up, run.next), ('forward 1001, 1002', [1, 2], 7000))
    run.says('the third', (run.at(7000).build(), run.given_up, run.next), ('forward 1001, 1002', [1, 2], 15000))

    for mode in ('data-pr', 'idata-pr'):
        run = Run(PLAIN, fragment=1000, mode=mode, case='limit 0 of three fragments, the second lost: the message is abandoned, ' + mode)
        run.send('61' * 3000, 'x0')
        for _ in range(3):
            run.build()
        run.sack(1000, (2, 2))
        run.says('one fragment of three lost, ' + mode, (run.at(1000).build(), run.given_up, run.build()), ('forward 1002', [1], 'quiet'))

    run = Run(PLAIN, mode='data', case='without partial reliability a limit counts for nothing')
    run.send(until='x0')
    run.build()
    run.says('no partial reliability', (run.at(1000).build(), run.at(3000).build(), run.given_up), ('1000', '1000', []))

    run = Run(PLAIN, case='limit 0, and no TSN yet at an expiry: it is not abandoned')
    run.send('61' * 3)
    run.sack(999, rwnd=3)
    run.send('62', 'x0')
    run.says('it waits', (run.build(), run.at(1000).build(), run.given_up), ('1000', '1000', []))
    run.sack(1000)
    run.says('and goes', run.build(), '1001')

    run = Run(PLAIN, fragment=4, case='limit 0, and a fragment with a TSN that was never sent: it is not abandoned')
    run.send('61' * 4)
    run.send('62' * 8, 'x0')
    run.sack(999, rwnd=8)
    run.says('a fragment with a TSN waits', run.build(), '1000, 1001')
    run.sack(999, (2, 2), rwnd=4)
    run.says('it never went out', (run.build(), run.at(1000).build(), run.given_up, run.end.sender.last()), ('quiet', '1000', [], 3))

    run = Run(PLAIN, case='a lifetime that is over as the timer expires, and limit 0: abandoned once')
    run.send(until='1000x0')
    run.says('a lifetime at the timer', (run.build(), run.at(1000).build(), run.given_up, run.end.timers['data'].count),
             ('1000', 'forward 1000', [1], 1))

    run = Run(PLAIN, case='limit 65,535')
    for _ in range(4):
        run.send(until='x65535')
    run.says('a limit of 65,535', (run.build(), run.at(1000).build(), run.given_up), ('1000, 1001, 1002, 1003', '1000, 1001, 1002, 1003', []))

    run = Run(PLAIN, mode='idata-pr', fragment=4, case='lifetimes and limit 0 at one time: abandoned by rising ticket')
    run.send('61' * 4, '1000')
    run.send('62' * 4, 'x0')
    run.send('63' * 4, '1000')
    run.says('one moment, by rising ticket', (run.build(), run.at(1000).build(), run.given_up), ('1000, 1001, 1002', 'forward 1002', [1, 2, 3]))


    for untils, wanted in ((('x0', 'x0'), [1, 2]), (('x0', '1000'), [2, 1])):
        run = Run(PLAIN, mode='idata-pr', fragment=4, streams=2, case='end marks of %s and %s: lifetimes first, then by rising TSN' % untils)
        run.sack(999, rwnd=8)
        for stream, until in enumerate(untils):
            run.send('61' * 8, until, stream)
        run.says('end marks of %s and %s' % untils, (run.build(), run.at(1000).build(), run.end_marks), ('1000, 1001', 'forward 1003', wanted))

    run = Run(PLAIN)
    run.send(until='x300')
    run.build()
    for _ in range(300):
        run.at(run.next).build()
        run.sack(999)
    run.says('limit 300', (run.given_up, run.at(run.next).build(), run.given_up), ([], 'forward 1000', [1]))


def once(partial=True):
    """Two fragments with limit 1, one without; the timer, and room for two chunks; the timer again."""
    sender = Sender(False, 1, 1, 4, 100, partial)
    sender.send(0, True, 0, b'\1\2\3\4\5', None, 1)
    sender.send(0, True, 0, b'\6', None)
    sender.fill(Writer(212))
    sender.wear(sender.above_cum())
    sender.on_timeout()
    sender.fill(Writer(52))
    return sender


def state(sender):
    entries = sender.plan[1:]
    return [e.repeats for e in entries], [e.marked for e in entries], sender.abandon_order


def again(sender):
    sender.wear(sender.above_cum())
    sender.on_timeout()
    return [i for i in sender.above_cum() if sender.plan[i].marked], sender.abandon_order, sender.point()


def in_turn():
    row('one repeat each', state(once()), ([1, 1, 0], [False, False, True], []))
    row('the timer gives up the first', again(once()), ([3], [1], 2))
    row('where nothing may be given up', again(once(False)), ([1, 2, 3], [], 0))


# ---- Words ----

def fault(*lines):
    return model.run('\n'.join(lines).encode(), lambda line: None)


def words():
    pair, both = 'pair 1500 1400 65536 1 data', 'options both delay'
    for word, wanted in (('x0', None), ('x65535', None), ('0x1', None), ('18446744073709551615x65535', None), ('x', 4), ('x65536', 4),
                         ('x01', 4), ('-x1', 4), ('1x', 4), ('1x2x3', 4), ('X1', 4), ('x-', 4), ('18446744073709551616x1', 4), ('01x1', 4), ('', 4)):
        send = 'send A 0 o 0 %s 61' % word
        row('until %s behind options' % word, fault(pair, both, 'open', send), wanted and (4, wanted))
        row('until %s without' % word, fault(pair, 'open', send), (3, 4))
        said = []
        end.Session(end.end_of(b'caller 1500 1400 65536 1 data 5000 5001'.split(b' ')), said.append).line(b'send 0 o 0 %s 61' % word.encode(), 0)
        row('until %s at sctp-end' % word, said, ['fault 4' if wanted else 'refused 7'])
    row('a limit before the pair', fault(both, 'send A 0 o 0 x1 61'), (1, 2))


def run(*made):
    """Runs these functions of rows; the status."""
    for make in made:
        make()
    if sys.argv[1:] == ['--rows']:
        for one in (one for one in SCRIPTS if one.case):
            print('\n'.join(['= ' + one.case, '$ sctp-trace run', *['> ' + line for line in one.lines]]) + '\n')
        return 0
    if sys.argv[1:] == ['--scripts']:
        for one in SCRIPTS:
            out = []
            print('\n'.join(one.lines))
            model.run('\n'.join(one.lines).encode(), out.append)
            print('\n'.join('< ' + line for line in out) + '\n')
        return 0
    wrong = ['%s: %s, not %s' % one for one in ROWS if one[1] != one[2]]
    print('\n'.join(wrong + ['%d rows passed, %d differ' % (len(ROWS) - len(wrong), len(wrong))]))
    return 1 if wrong else 0


if __name__ == '__main__':
    sys.exit(run(limits, in_turn, words))
