#!/usr/bin/env python3
"""A model of `sctp-trace run`: a script on standard input, its outcomes and report on standard output.

With the words `packet HEX` or `chunks HEX` it prints what `sctp-trace` prints for these. It is
written from the RFCs and the script language alone, apart from the proved code, so that the two can
be compared (compare.sh). Status 2 and `line N: K` on standard error for a fault.
"""

import re
import sys

from endpoint import Config, Endpoint
from printing import hex_text, print_bytes

LINE_LIMIT, SCRIPT_LIMIT = 140_000, 2**40
TOO_LONG, UNKNOWN_COMMAND, WORD_COUNT, BAD_VALUE, PAIR = 1, 2, 3, 4, 5
KEY = bytes(range(32))
PORT = {'A': 5000, 'B': 5001}
MODES = {b'data': (False, False), b'data-pr': (True, False),
         b'idata': (False, True), b'idata-pr': (True, True)}      # (partial reliability, I-DATA)
OTHER = {'A': 'B', 'B': 'A'}


class LineFault(Exception):
    """The kind of a line's fault."""


# ---- Values of words ----

def number(limit):
    def read(word):
        if not re.fullmatch(rb'0|[1-9][0-9]*', word) or len(word) > 20 or int(word) > limit:
            raise LineFault(BAD_VALUE)
        return int(word)
    return read


def tag(word):
    value = number(2**32 - 1)(word)
    if value == 0:
        raise LineFault(BAD_VALUE)
    return value


def one_of(*words):
    def read(word):
        if word not in words:
            raise LineFault(BAD_VALUE)
        return word.decode()
    return read


def hex_bytes(word):
    if word == b'-':
        return b''
    if not word or len(word) % 2 or not re.fullmatch(rb'[0-9a-f]+', word):
        raise LineFault(BAD_VALUE)
    return bytes.fromhex(word.decode())


def until(word):
    """A message's lifetime, and how often its fragments may be retransmitted: each None without a limit."""
    return None if word == b'-' else number(2**64 - 1)(word), None


def until_limited(word):
    """The same behind a line `options` and at `sctp-end`, where `xN` or `TxN` may stand, for N retransmissions (RFC 7496)."""
    moment, cross, limit = word.partition(b'x')
    if not cross:
        return until(word)
    return number(2**64 - 1)(moment) if moment else None, N16(limit)


SIDE = one_of(b'A', b'B')
N16, N32, N64 = number(2**16 - 1), number(2**32 - 1), number(2**64 - 1)
KIND = one_of(b'o', b'u')
MODE = one_of(*MODES)

DELAY = one_of(b'delay')

COMMANDS = {
    b'pair': (N32, N32, N32, N32, MODE, DELAY),
    b'open': (),
    b'at': (N64,),
    b'draw': (tag, N32),
    b'connect': (tag, N32),
    b'build': (SIDE,),
    b'deliver': (SIDE, N32),
    b'foreign': (SIDE, hex_bytes),
    b'send': (SIDE, N16, KIND, N32, until, hex_bytes),
    b'abandon': (SIDE, N64),
    b'take': (SIDE, N16),
    b'shutdown': (SIDE,),
    b'abort': (SIDE, hex_bytes),
}
MAY_BE_LEFT_OUT = (DELAY,)
# Behind a line `options` these are commands too.
FURTHER_COMMANDS = {
    b'reset': (SIDE, N16),
    b'resets': (SIDE,),
    b'later': (SIDE, N64),
    b'moment': (SIDE,),
}

# What a line `options` may set at the ends that it names, with the words of each.
NAMED_ENDS = {b'A': 'A', b'B': 'B', b'both': 'AB'}
OPTIONS = {
    b'limit': (N16,),
    b'fragment': (N16,),
    b'buffer': (N32,),
    b'streams': (N16, N16),       # outbound, inbound
    b'mode': (MODE,),
    b'delay': (),
    b'standard-closing': (),
    b'fast-retransmit': (),
    b'congestion-control': (),
    b'rto-min': (N32,),
    b'reset': (),
}
PACED = (b'fast-retransmit', b'congestion-control', b'rto-min')


def in_range(limit, fragment, buffer, *streams):
    """Whether an end may have these sizes and streams."""
    return (576 <= limit <= 1500 and 4 <= fragment <= 1400 and 32 + (fragment + 3) // 4 * 4 <= limit
            and 65_536 <= buffer <= 16_777_216 and all(1 <= count <= 1_024 for count in streams))


def split_options(words):
    """The ends that the words of a line `options` name and its options, each with its words; None if it
    isn't of this form. An option takes its words whatever they are."""
    named, rest, found = NAMED_ENDS.get(words[0]) if words else None, words[1:], []
    while rest:
        name, *rest = rest
        count = len(OPTIONS.get(name, ()))
        if name not in OPTIONS or count > len(rest):
            return None
        found.append((name, rest[:count]))
        rest = rest[count:]
    return (named, found) if named and found else None


class Pair:
    """Two ends, a bag of packets and a clock for each, and the draw."""

    def __init__(self, limit, fragment, buffer, streams, mode, delay=None):
        if not in_range(limit, fragment, buffer, streams):
            raise LineFault(BAD_VALUE)
        partial, interleave = MODES[mode.encode()]
        self.configs = {x: Config(PORT[x], PORT[OTHER[x]], limit, fragment, buffer, streams,
                                  partial, interleave, delay is not None) for x in 'AB'}
        self.make_ends()
        self.bags = {'A': [], 'B': []}
        self.tickets = {'A': [], 'B': []}
        self.clocks, self.next_draw = {'A': 0, 'B': 0}, (1, 1)
        self.may_open = True

    def make_ends(self):
        """By their configurations; nothing has happened to them."""
        self.ends = {'A': Endpoint(self.configs['A']), 'B': Endpoint(self.configs['B'], KEY)}

    # ---- A line `options` ----

    def set_options(self, named, found):
        """All options of a line act, and then the configuration of each end that it names must be right."""
        values = [(name.decode(), [read(word) for read, word in zip(OPTIONS[name], words)]) for name, words in found]
        for config in (self.configs[x] for x in named):
            for name, words in values:
                self.set_option(config, name, *words)
            if not in_range(config.limit, config.fragment, config.buffer, config.outbound, config.inbound):
                raise LineFault(BAD_VALUE)
        self.make_ends()

    @staticmethod
    def set_option(config, name, *words):
        field = name.replace('-', '_')
        if name == 'streams':
            config.outbound, config.inbound = words
        elif name == 'mode':
            config.partial, config.interleave = MODES[words[0].encode()]
        elif words:
            setattr(config, field, *words)
        else:
            setattr(config, field, True)
        config.fast_retransmit |= config.congestion_control

    # ---- One method for each command; the outcome line ----

    def open(self):
        if not self.may_open or not self.configs['A'].would_agree(self.configs['B']):
            return 'refused 1'
        self.may_open = False
        draws = {'A': (1, 1), 'B': (2, 1)}
        for x in 'AB':
            self.ends[x] = Endpoint.opened(self.configs[x], draws[x], draws[OTHER[x]])
        return 'ok'

    def at(self, moment):
        for x in 'AB':
            self.later(x, moment)
            self.moment(x)
        return 'ok'

    def later(self, x, moment):
        self.clocks[x] = max(self.clocks[x], moment)
        return 'ok'

    def moment(self, x):
        self.ends[x].on_moment(self.clocks[x])
        return 'ok'

    def draw(self, drawn_tag, tsn):
        self.next_draw = (drawn_tag, tsn)
        return 'ok'

    def connect(self, drawn_tag, tsn):
        if not self.ends['A'].connect(self.clocks['A'], (drawn_tag, tsn)):
            return 'refused 1'
        self.may_open = False
        return 'ok'

    def into_bag(self, x, word, packet):
        self.bags[x].append(packet)
        return '%s %s %d %d' % (word, x, len(self.bags[x]), len(packet))

    def build(self, x):
        packet, tickets = self.ends[x].poll_transmit(self.clocks[x])
        self.tickets[x] += tickets
        return 'quiet %s' % x if packet is None else self.into_bag(x, 'sent', packet)

    def arrive(self, y, packet):
        self.may_open = False
        verdict, *rest = self.ends[y].handle_packet(self.clocks[y], packet, self.next_draw)
        if verdict == 'answer':
            return self.into_bag(y, 'answer', rest[0])
        return ' '.join([verdict, y] + [str(reason) for reason in rest])

    def deliver(self, x, n):
        if not 1 <= n <= len(self.bags[x]):
            return 'absent'
        return self.arrive(OTHER[x], self.bags[x][n - 1])

    def foreign(self, y, packet):
        return self.arrive(y, packet)

    def send(self, x, stream, kind, payload_id, limits, data):
        answer = self.ends[x].send(stream, kind == 'o', payload_id, data, *limits)
        return 'ticket %s %d' % (x, answer) if answer > 0 else 'refused %d' % -answer

    def abandon(self, x, ticket):
        return 'fate %s %d' % (x, self.ends[x].abandon(ticket))

    def take(self, x, stream):
        message = self.ends[x].take(stream)
        if message is None:
            return 'empty %s %d' % (x, stream)
        named = '-' if message.number is None else message.number
        return 'message %s %d %s %s %d %s' % (x, stream, 'o' if message.ordered else 'u', named,
                                              message.payload_id, hex_text(message.data))

    def reset(self, x, stream):
        refusal = self.ends[x].reset(stream)
        return 'refused %d' % refusal if refusal else 'ok'

    def resets(self, x):
        found = self.ends[x].take_reset()
        return 'no-reset %s' % x if found is None else 'reset %s %d %d' % (x, *found)

    def shutdown(self, x):
        return 'ok' if self.ends[x].shutdown() else 'refused 1'

    def abort(self, x, reason):
        answer = self.ends[x].abort(reason)
        return 'refused %d' % answer if isinstance(answer, int) else self.into_bag(x, 'answer', answer)

    # ---- The report ----

    def report(self):
        return [line for x in 'AB' for line in self.report_of(x)]

    def report_of(self, x):
        end = self.ends[x]
        lines = ['end %s %s %s' % (x, end.state, end.ended or '-')]
        lines += listing('numbered %s' % x, self.tickets[x])
        lines += listing('abandoned %s' % x, end.sender.abandon_order if end.sender else [])
        handed = end.receiver.handed if end.receiver else []
        for stream in sorted({message.stream for message in handed}):
            of_stream = [message for message in handed if message.stream == stream]
            lines += listing('handed %s %d o' % (x, stream), [m.number for m in of_stream if m.ordered])
            count = sum(1 for m in of_stream if not m.ordered)
            lines += listing('handed %s %d u' % (x, stream), [count] if count else [])
        return lines


def listing(start, numbers):
    return [' '.join([start] + [str(n) for n in numbers])] if numbers else []


# ---- The script ----

class Script:
    """Runs line by line; `write` is called with each line of output. Without `options` no line is of that form."""

    def __init__(self, write, options=True):
        self.pair, self.write, self.read, self.options = None, write, 0, options
        self.is_behind = False               # no line but `pair` and lines `options` has acted
        self.has_options = False             # a line `options` has acted

    def line(self, line, size):
        """One line without its LF, and its size with it."""
        self.read += size
        if len(line) > LINE_LIMIT or self.read > SCRIPT_LIMIT:
            raise LineFault(TOO_LONG)
        if not line or line.startswith(b'#'):
            return
        command, *words = line.split(b' ')
        options = split_options(words) if command == b'options' and self.is_behind else None
        if options is not None:
            self.pair.set_options(*options)
            self.has_options = True
            return
        commands = {**COMMANDS, **FURTHER_COMMANDS} if self.has_options else COMMANDS
        if command not in commands:
            raise LineFault(UNKNOWN_COMMAND)
        readers = commands[command]
        if len(words) not in (len(readers), len(readers) - (readers[-1:] == MAY_BE_LEFT_OUT)):
            raise LineFault(WORD_COUNT)
        if self.has_options:
            readers = [until_limited if read is until else read for read in readers]
        values = [read(word) for read, word in zip(readers, words)]
        if command == b'pair':
            pair = Pair(*values)
            if self.pair is not None:
                raise LineFault(PAIR)
            self.pair, self.is_behind = pair, self.options
            return
        if self.pair is None:
            raise LineFault(PAIR)
        self.is_behind = False
        self.write(getattr(self.pair, command.decode())(*values))

    def end(self):
        if self.pair is None:
            raise LineFault(PAIR)
        for line in self.pair.report():
            self.write(line)


def run(data, write, options=True):
    """Runs a whole script; None, or (line, kind) of the first fault."""
    script, count = Script(write, options), 0
    lines = data.split(b'\n')
    try:
        for count, line in enumerate(lines, 1):
            ended = count < len(lines)
            if ended or line:
                script.line(line, len(line) + ended)
        count = 1
        script.end()
    except LineFault as fault:
        return count, fault.args[0]
    return None


def main():
    if len(sys.argv) == 3 and sys.argv[1] in ('packet', 'chunks'):
        lines, status = print_bytes(*sys.argv[1:])
        print(''.join(line + '\n' for line in lines), end='')
        return status
    out = []
    fault = run(sys.stdin.buffer.read(), out.append)
    sys.stdout.write(''.join(line + '\n' for line in out))
    sys.stdout.flush()
    if fault is not None:
        sys.stderr.write('line %d: %d\n' % fault)
        return 2
    return 0


if __name__ == '__main__':
    sys.exit(main())
