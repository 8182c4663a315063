"""A row of stream resets (RFC 6525) at two ends: a script with known outcomes and bytes. reset_rows.py has the rows."""

import wire
from model import LineFault, Script
from wire import pad

ROWS = []
PAIR, BOTH, OPEN = 'pair 1500 1400 65536 %d %s', 'options both reset', ('open', 'ok')


class Row:
    """A script, with the outcome that is known of each line, and the chunks of the packets that it looks at."""

    def __init__(self, name, streams=1, mode='data', options=(BOTH,), pair=None, opens=True):
        self.name, self.steps, self.chunks = name, [], {}
        self.sent = {'A': 0, 'B': 0}
        ROWS.append(self)
        for line in (pair or PAIR % (streams, mode), *options):
            self.steps.append((line, None))
        if opens:
            self.says(*OPEN)

    def says(self, line, *outcomes):
        """This line, and its outcome; of a `build` what the packet has behind the header, and of some the bytes."""
        self.steps.append((line, outcomes[0] if outcomes else None))
        return self

    def build(self, x, length=None, chunks=None):
        """A packet of this length with these chunks; `quiet` without a length."""
        if length is None:
            return self.says('build ' + x, 'quiet ' + x)
        self.sent[x] += 1
        if chunks is not None:
            self.chunks[x, self.sent[x]] = chunks
        return self.says('build ' + x, 'sent %s %d %d' % (x, self.sent[x], length))

    def comes(self, x, n=None):
        """Packet n of x's bag, or its last one, is taken."""
        return self.says('deliver %s %d' % (x, n or self.sent[x]), 'taken ' + {'A': 'B', 'B': 'A'}[x])

    def goes(self, x, length, chunks=None):
        return self.build(x, length, chunks).comes(x)

    def foreign(self, y, *chunks):
        """A packet of a stranger that knows the tag."""
        return self.says('foreign %s %s' % (y, packet(y, *chunks)), 'taken ' + y)

    def send(self, stream=0, byte='61', x='A', kind='o', ticket=None):
        return self.says('send %s %d %s 0 - %s' % (x, stream, kind, byte), *(['ticket %s %d' % (x, ticket)] if ticket else []))

    def message(self, stream, number, byte, x='B', kind='o'):
        return self.says('take %s %d' % (x, stream), 'message %s %d %s %s 0 %s' % (x, stream, kind, number, byte))

    def check(self):
        """What differs, in words."""
        out, wrong = [], []
        script = Script(out.append)
        for line, outcome in self.steps:
            del out[:]
            try:
                script.line(line.encode(), len(line) + 1)
            except LineFault as fault:
                out.append('fault %d' % fault.args[0])
            if outcome is not None and out != [outcome]:
                wrong.append('%s: %s: %s, not %s' % (self.name, line[:60], out, outcome[:80]))
        for (x, n), chunks in self.chunks.items():
            found = script.pair.bags[x][n - 1][12:] if n <= len(script.pair.bags[x]) else b''
            if found != bytes.fromhex(chunks.replace(' ', '')):
                wrong.append('%s: packet %s %d is %s' % (self.name, x, n, found.hex()))
        return wrong

    def case(self):
        return '\n'.join(['= ' + self.name, '$ sctp-trace run', *(text for line, _ in self.steps for text in shown(line))]) + '\n'


def packet(y, *chunks):
    """The digits of a packet to this end, of two that were opened at once."""
    tag, ports = {'A': (1, (5001, 5000)), 'B': (2, (5000, 5001))}[y]
    return wire.packet(*ports, tag, [bytes.fromhex(c.replace(' ', '')) for c in chunks]).hex()


def shown(line):
    """A line as it stands in a case; one with a long message is cut."""
    front, _, last = line.rpartition(' ')
    if front.startswith('send ') and len(last) > 64:
        return ['- %s ' % front, 'x%d %s' % (len(last) // 2, last[:2])]
    return ['> ' + line]


def request(number, answered, last, *streams):
    """The digits of a RE-CONFIG with this request alone."""
    size = 16 + 2 * len(streams)
    return pad(bytes.fromhex('8200%04x' % (4 + size) + parameter(number, answered, last, *streams))).hex()


def parameter(number, answered, last, *streams):
    return '000d%04x%08x%08x%08x' % (16 + 2 * len(streams), number, answered, last) + ''.join('%04x' % s for s in streams)


def responses(*told):
    return '8200%04x' % (4 + 12 * len(told)) + ''.join('0010000c%08x%08x' % one for one in told)


def data(tsn, stream, ssn, byte, flags=3):
    return '00%02x0011%08x%04x%04x00000000%s000000' % (flags, tsn, stream, ssn, byte)


def sack(tsn, rwnd, *duplicates):
    return '0300%04x%08x%08x0000%04x' % (16 + 4 * len(duplicates), tsn, rwnd, len(duplicates)) + ''.join('%08x' % d for d in duplicates)


def reset_begins(name, **how):
    """A message on stream 0, acknowledged, and the stream is reset; TSNs begin with 1."""
    made = Row(name, **how)
    return made.send(ticket=1).goes('A', 32).goes('B', 28, sack(1, 0xffff)).says('reset A 0', 'ok')
