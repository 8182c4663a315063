#!/usr/bin/env python3
"""Two ends with data channels, or with an endpoint alone, by lines: what `crates/sctp_channel_rows` writes.

channel_lines.py < CASES prints the transcript. docs/CALLS.md has the lines.
"""

import sys

import dcep
import wire
from channels import RESET_REFUSALS, SEND_REFUSALS, Channels, Refused
from dcep import Opening
from endpoint import CLOSED, LISTEN, Config, Endpoint

PORTS = {'A': (5_000, 5_001), 'B': (5_001, 5_000)}
DRAWS = {'A': (7, 4_294_967_200), 'B': (8, 1_000)}
OTHER = {'A': 'B', 'B': 'A'}
OPTIONS = {'pr': 'partial', 'i-data': 'interleave', 'reset': 'reset', 'delay': 'delay', 'fast-retransmit': 'fast_retransmit',
           'congestion-control': 'congestion_control'}
SHOWN = 16
ABORT_REFUSALS = {1: 'there is no peer to send an ABORT to', 2: 'the reason is too long for one packet'}


def bytes_of(word):
    if word == '-':
        return b''
    if word.startswith('+'):
        return bytes(k % 251 for k in range(int(word[1:])))
    return bytes.fromhex(word)


def show(data):
    if len(data) <= SHOWN:
        return data.hex() or '-'
    return '%s..%d:%08x' % (data[:SHOWN].hex(), len(data), wire.crc32c(data))


def reliability(word):
    """(kind, value)"""
    if word == '-':
        return dcep.RELIABLE, 0
    return (dcep.REXMIT, int(word[1:])) if word.startswith('x') else (dcep.TIMED, int(word))


def show_reliability(opening):
    return {dcep.RELIABLE: '-', dcep.REXMIT: 'x%d', dcep.TIMED: '%d'}[opening.kind] % (() if opening.kind == dcep.RELIABLE else opening.value)


def show_event(event):
    """A line of an event."""
    if event is None:
        return 'nothing'
    name, stream, *more = event
    if name == 'incoming':
        opening = more[0]
        return 'incoming %d %s %s %d %s %s' % (stream, 'o' if opening.ordered else 'u', show_reliability(opening), opening.priority,
                                               show(opening.label), show(opening.protocol))
    if name == 'message':
        return 'message %d %s %s' % (stream, 'text' if more[0] else 'binary', show(more[1]))
    return '%s %d' % (name, stream) + (': ' + more[0] if more else '')


def config_fault(limit, fragment, buffer, *streams):
    """The first fault of a configuration, or None."""
    if not 576 <= limit <= 1_500:
        return 'the packet limit is out of range'
    if not 4 <= fragment <= 1_400 or 32 + (fragment + 3) // 4 * 4 > limit:
        return 'the fragment is out of range'
    if not 65_536 <= buffer <= 16_777_216:
        return 'the buffer is out of range'
    if not all(1 <= count <= 1_024 for count in streams):
        return 'the number of streams is out of range'
    return None


class Ends:
    """A case: the two ends, the time, and the packets, each with the side that it goes to."""

    def __init__(self):
        self.now, self.packets, self.ends = 0, [], {}
        self.made = self.sent = self.told = lambda *what: None       # who is told of a side, of messages that are accepted, and of events

    def line(self, line):
        """The lines of the answer; none of a remark."""
        name, *words = line.split(' ')
        if name in ('A', 'B'):
            return self.call(name, *words)
        if name in ('new', 'at', 'deliver', 'exchange'):
            return getattr(self, name)(*words)
        return []

    # ---- Both ends ----

    def new(self, side, kind, *words):
        limit, fragment, buffer, outbound, inbound = (int(word) for word in words[:5])
        fault = config_fault(limit, fragment, buffer, outbound, inbound)
        if fault:
            return [fault]
        config = Config(*PORTS[side], limit, fragment, buffer, outbound, False, False)
        config.inbound = inbound
        for word in words[5:]:
            if word in OPTIONS:
                setattr(config, OPTIONS[word], True)
        config.fast_retransmit |= config.congestion_control
        if 'caller' in words or 'listener' in words:
            end = Endpoint(config, bytes(32) if 'listener' in words else None)
        else:
            end = Endpoint.opened(config, DRAWS[side], DRAWS[OTHER[side]])
        self.ends[side] = end if kind == 'bare' else Channels(end, kind == 'client')
        self.made(side)
        return ['ok']

    def endpoint(self, side):
        over = self.ends[side]
        return over.end if isinstance(over, Channels) else over

    def at(self, moment):
        self.now = max(self.now, int(moment))
        for side in self.ends:
            self.endpoint(side).on_moment(self.now)
        return ['ok']

    def keep(self, side, packet):
        self.packets.append((side, packet))
        return len(self.packets)

    def note(self, side, packet):
        return ['packet %d %d %s' % (self.keep(side, packet), len(packet), packet[8:12].hex())]

    def handle(self, number):
        side, packet = self.packets[number - 1]
        return self.ends[side].handle_packet(self.now, packet, DRAWS[side])

    def deliver(self, number):
        kind, *more = self.handle(int(number))
        if kind == 'answer':
            return self.note(OTHER[self.packets[int(number) - 1][0]], more[0])
        return [' '.join([kind] + ['%d' % one for one in more])]

    def exchange(self):
        went = True
        while went:
            went = self.carry('A') | self.carry('B')
        return ['packets %d' % len(self.packets)]

    def carry(self, side):
        packet, _ = self.ends[side].poll_transmit(self.now)
        if packet is None:
            return False
        kind, *more = self.handle(self.keep(OTHER[side], packet))
        if kind == 'answer':
            self.handle(self.keep(side, more[0]))
        return True

    # ---- One end ----

    def call(self, side, name, *words):
        try:
            return getattr(self, 'do_' + name)(side, self.ends[side], *words)
        except Refused as why:
            return [str(why)]

    def do_poll(self, side, over):
        packet, _ = over.poll_transmit(self.now)
        return ['nothing'] if packet is None else self.note(OTHER[side], packet)

    def do_connect(self, side, _):
        return ['ok' if self.endpoint(side).connect(self.now, DRAWS[side]) else 'the endpoint has been used']

    def do_shutdown(self, side, _):
        return ['ok' if self.endpoint(side).shutdown() else 'there is no open association']

    def do_abandon(self, side, _, ticket):
        return ['fate %d' % self.endpoint(side).abandon(int(ticket))]

    def do_abort(self, side, _, reason):
        answer = self.endpoint(side).abort(bytes_of(reason))
        return [ABORT_REFUSALS[answer]] if isinstance(answer, int) else self.note(OTHER[side], answer)

    def do_state(self, side, _):
        end = self.endpoint(side)
        moment, sender, receiver = end.next_moment(), end.sender, end.receiver
        return ['%s %s %s %d %d' % (end.state, 'None' if end.ended is None else 'Some(%s)' % end.ended,
                                    '-' if moment is None else moment, sender.streams if sender else 0,
                                    receiver.streams if receiver else 0)]

    def do_tag(self, side, _):
        """A listener has none till a cookie opens, and no end has one once its association is over."""
        end = self.endpoint(side)
        return ['none' if end.state in (CLOSED, LISTEN) else 'tag %d' % end.own_tag]

    def do_trim(self, *_):
        return ['ok']

    # ---- Channels ----

    def do_open(self, side, over, stream, order, limits, priority, label, protocol):
        opening = Opening(order == 'o', *reliability(limits), int(priority), bytes_of(label), bytes_of(protocol))
        return ['stream %d' % over.open(None if stream == '-' else int(stream), opening)]

    def do_negotiated(self, _, over, stream, order, limits):
        over.open_negotiated(int(stream), Opening(order == 'o', *reliability(limits), 0, b'', b''))
        return ['ok']

    def do_send(self, side, over, stream, kind, data):
        data = bytes_of(data)
        ticket = over.send(self.now, int(stream), kind == 'text', data)
        self.sent(side, int(stream), kind == 'text', data, ticket)
        return ['ticket %d' % ticket]

    def do_close(self, _, over, stream):
        over.close(int(stream))
        return ['ok']

    def do_event(self, side, over):
        event = over.next_event()
        self.told(side, event)
        return [show_event(event)]

    def do_events(self, side, over):
        answers = self.do_event(side, over)
        while answers[-1] != 'nothing':
            answers += self.do_event(side, over)
        return answers

    def do_buffered(self, _, over, stream):
        return ['%d' % over.buffered(int(stream))]

    def do_low(self, _, over, stream, size):
        over.set_threshold(int(stream), int(size))
        return ['ok']

    def do_largest(self, _, over):
        return ['%d' % (over.end.config.buffer // 4)]

    # ---- An endpoint alone ----

    def do_raw(self, side, over, stream, order, payload_id, data):
        data, stream, payload_id = bytes_of(data), int(stream), int(payload_id)
        answer = over.send(stream, order == 'o', payload_id, data, None)
        if answer < 0:
            return [SEND_REFUSALS[-answer]]
        content = dcep.content(payload_id, data)
        if content is not None:
            self.sent(side, stream, *content, answer)
        return ['ticket %d' % answer]

    def do_reset(self, _, over, stream):
        refusal = over.reset(int(stream))
        return [RESET_REFUSALS[refusal] if refusal else 'ok']

    def do_take(self, _, over, stream):
        message = over.take(int(stream))
        if message is None:
            return ['nothing']
        return ['message %s %d %s' % ('o' if message.ordered else 'u', message.payload_id, show(message.data))]

    def do_told(self, _, over):
        found = over.take_reset()
        return ['nothing' if found is None else 'reset %d %d' % found]


def repeated(line):
    """How often the line's call is made, and the call."""
    sign, _, call = line.partition(' ')
    return (int(sign[1:]), call) if sign.startswith('*') and call else (1, line)


def transcript(text):
    head, *cases = text.removesuffix('\n').split('\n= ')
    lines = [head]
    for case in cases:
        name, *calls = case.split('\n')
        ends = Ends()
        lines.append('= ' + name)
        for line in calls:
            times, call = repeated(line)
            lines.append(line)
            for _ in range(times):
                answer = ends.line(call)
            lines += answer
    return '\n'.join(lines) + '\n'


if __name__ == '__main__':
    sys.stdout.write(transcript(sys.stdin.read()))
