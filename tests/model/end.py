#!/usr/bin/env python3
"""A model of `sctp-end`: one end, its user's calls and the packets that come, line by line.

end.py caller LIMIT FRAGMENT BUFFER STREAMS MODE PORT PEER < LINES, or listener .. KEY, prints the
answers; behind MODE may stand `delay`, `standard-closing`, `fast-retransmit`, `congestion-control`, `reset` and
`rto-min MS`, in this order. Status 1 for words that are no form.
"""

import sys

from endpoint import Config, Endpoint
from model import (BAD_VALUE, KIND, LINE_LIMIT, MODE, MODES, N16, N32, N64, TOO_LONG, UNKNOWN_COMMAND, WORD_COUNT,
                   LineFault, hex_bytes, in_range, tag, until_limited)
from printing import hex_text

COMMANDS = {
    b'connect': (tag, N32),
    b'draw': (tag, N32),
    b'at': (N64,),
    b'packet': (hex_bytes,),
    b'build': (),
    b'send': (N16, KIND, N32, until_limited, hex_bytes),
    b'abandon': (N64,),
    b'acknowledged': (N64,),
    b'abandoned': (N64,),
    b'take': (N16,),
    b'reset': (N16,),
    b'resets': (),
    b'shutdown': (),
    b'abort': (hex_bytes,),
    b'next': (),
    b'state': (),
    b'held': (),
    b'reassembly': (),
    b'status': (),
    b'path': (),
    b'counts': (),
}


def port(word):
    value = N16(word)
    if value == 0:
        raise LineFault(BAD_VALUE)
    return value


def key(word):
    value = hex_bytes(word)
    if len(value) != 32:
        raise LineFault(BAD_VALUE)
    return value


SETTINGS = (N32, N32, N32, N32, MODE, port, port)
ROLES = {b'caller': SETTINGS, b'listener': SETTINGS + (key,)}
# Behind MODE, in this order; and then RTO_MIN with a word.
OPTIONS, RTO_MIN = (b'delay', b'standard-closing', b'fast-retransmit', b'congestion-control', b'reset'), b'rto-min'


def end_of(words):
    """The endpoint that these words set up, or None."""
    role, *words = words or [b'']
    options = {}
    for option in OPTIONS:
        is_set = options[option.decode().replace('-', '_')] = words[5:6] == [option]
        del words[5:5 + is_set]
    rto_min = words[6:7] if words[5:6] == [RTO_MIN] else []
    del words[5:5 + 2 * len(rto_min)]
    if len(words) != len(ROLES.get(role, ())) or not words:
        return None
    try:
        limit, fragment, buffer, streams, mode, own_port, peer_port, *keys = [
            read(word) for read, word in zip(ROLES[role], words)]
        options.update(('rto_min', N32(word)) for word in rto_min)
    except LineFault:
        return None
    if not in_range(limit, fragment, buffer, streams):
        return None
    config = Config(own_port, peer_port, limit, fragment, buffer, streams, *MODES[mode.encode()], **options)
    return Endpoint(config, *keys)


def status_of(endpoint):
    """What an end tells of itself on one line."""
    moment = endpoint.next_moment()
    words = ['status', endpoint.state, endpoint.ended or '-', '-' if moment is None else moment]
    sender, receiver = endpoint.sender, endpoint.receiver
    if sender is None:
        return ' '.join(map(str, words + ['-'] * 3 + [0] * 5 + ['-']))
    formats = {on: name for name, on in MODES.items()}[bool(endpoint.partial), bool(endpoint.interleave)]
    queued = [len(message.data) for message in sender.queue]
    readable = min((message.stream for message in receiver.waiting), default='-')
    return ' '.join(map(str, words + [sender.streams, receiver.streams, formats.decode(), sender.outstanding(),
                                      len(queued), sum(queued), receiver.held, sender.rwnd, readable]))


def path_of(endpoint):
    """The bytes in flight; SRTT, RTTVAR and the RTO in milliseconds; the congestion window and its threshold in bytes."""
    words, pace = ['path', 0 if endpoint.sender is None else endpoint.sender.in_flight()] + ['-'] * 5, endpoint.pace
    if pace is not None:
        words[4] = endpoint.timers['data'].wait
        if pace.trips.eight is not None:
            words[2:4] = pace.trips.eight // 8, pace.trips.four // 4
        if pace.window is not None:
            words[5:] = pace.window.cwnd, pace.window.ssthresh
    return ' '.join(map(str, words))


def counts_of(endpoint):
    return ' '.join(map(str, ('counts', *endpoint.counts.line(endpoint.sender))))


def reassembly_of(endpoint):
    """The bytes of its receive buffer that wait for a fragment or for an earlier message."""
    if endpoint.receiver is None:
        return 0
    return sum(len(kept.piece.data) for pieces in endpoint.receiver.kept.values() for kept in pieces)


class Session:
    """Answers line by line; `write` has the answers so far."""

    def __init__(self, endpoint, write):
        self.endpoint, self.write, self.clock, self.next_draw = endpoint, write, 0, (1, 1)

    def line(self, line, _):
        """One line without its LF. A fault changes nothing."""
        try:
            if len(line) > LINE_LIMIT:
                raise LineFault(TOO_LONG)
            if line and not line.startswith(b'#'):
                self.write(self.answer(*line.split(b' ')))
        except LineFault as fault:
            self.write('fault %d' % fault.args[0])

    def answer(self, command, *words):
        if command not in COMMANDS:
            raise LineFault(UNKNOWN_COMMAND)
        readers = COMMANDS[command]
        if len(words) != len(readers):
            raise LineFault(WORD_COUNT)
        return getattr(self, command.decode())(*[read(word) for read, word in zip(readers, words)])

    def end(self):
        """Nothing is said behind the last line."""

    # ---- One method for each command; its answer ----

    def connect(self, drawn_tag, tsn):
        return 'ok' if self.endpoint.connect(self.clock, (drawn_tag, tsn)) else 'refused 1'

    def draw(self, drawn_tag, tsn):
        self.next_draw = (drawn_tag, tsn)
        return 'ok'

    def at(self, moment):
        self.clock = max(self.clock, moment)
        self.endpoint.on_moment(self.clock)
        return 'ok'

    def packet(self, data):
        verdict, *rest = self.endpoint.handle_packet(self.clock, data, self.next_draw)
        return ' '.join([verdict] + [hex_text(one) if verdict == 'answer' else str(one) for one in rest])

    def build(self):
        packet, _ = self.endpoint.poll_transmit(self.clock)
        return 'quiet' if packet is None else 'sent ' + hex_text(packet)

    def send(self, stream, kind, payload_id, limits, data):
        answer = self.endpoint.send(stream, kind == 'o', payload_id, data, *limits)
        return 'ticket %d' % answer if answer > 0 else 'refused %d' % -answer

    def abandon(self, ticket):
        return 'fate %d' % self.endpoint.abandon(ticket)

    def acknowledged(self, ticket):
        return self.holds(ticket, lambda message: self.endpoint.sender.acknowledged(message))

    def abandoned(self, ticket):
        return self.holds(ticket, lambda message: message.abandoned)

    def holds(self, ticket, test):
        """Whether there is a message with this ticket of which the test holds."""
        messages = self.endpoint.sender.messages if self.endpoint.sender is not None else []
        return 'yes' if 1 <= ticket <= len(messages) and test(messages[ticket - 1]) else 'no'

    def take(self, stream):
        message = self.endpoint.take(stream)
        if message is None:
            return 'empty %d' % stream
        named = '-' if message.number is None else message.number
        return 'message %d %s %s %d %s' % (stream, 'o' if message.ordered else 'u', named, message.payload_id,
                                           hex_text(message.data))

    def reset(self, stream):
        refusal = self.endpoint.reset(stream)
        return 'refused %d' % refusal if refusal else 'ok'

    def resets(self):
        found = self.endpoint.take_reset()
        return 'no-reset' if found is None else 'reset %d %d' % found

    def shutdown(self):
        return 'ok' if self.endpoint.shutdown() else 'refused 1'

    def abort(self, reason):
        answer = self.endpoint.abort(reason)
        return 'refused %d' % answer if isinstance(answer, int) else 'answer ' + hex_text(answer)

    def next(self):
        moment = self.endpoint.next_moment()
        return 'next %s' % ('-' if moment is None else moment)

    def state(self):
        return 'state %s %s' % (self.endpoint.state, self.endpoint.ended or '-')

    def held(self):
        return 'held %d' % (self.endpoint.receiver.held if self.endpoint.receiver is not None else 0)

    def reassembly(self):
        return 'reassembly %d' % reassembly_of(self.endpoint)

    def status(self):
        return status_of(self.endpoint)

    def path(self):
        return path_of(self.endpoint)

    def counts(self):
        return counts_of(self.endpoint)


def main():
    endpoint = end_of([word.encode() for word in sys.argv[1:]])
    if endpoint is None:
        return 1
    session = Session(endpoint, lambda answer: print(answer, flush=True))
    for line in sys.stdin.buffer:
        session.line(line.removesuffix(b'\n'), len(line))
    return 0


if __name__ == '__main__':
    sys.exit(main())
