"""A case of crates/sctp_rows with `sctp-end`: its lines, made beside a run of the model."""

import struct

import end
import wire
from wire import chunk, item

OWN_TAG, PEER_TAG, OWN_TSN, PEER_TSN = 7, 9, 1000, 500
OPTIONS = {'data': (), 'data-pr': (wire.FORWARD_TSN,), 'idata': (wire.I_DATA,), 'idata-pr': (wire.I_DATA, wire.FORWARD_TSN, wire.I_FORWARD_TSN)}
LOOK = ('path', 'next')


class Case:
    """A caller with these options, called at the time `begins`, whose COOKIE ACK arrives `trip` ms later; `rwnd` is the peer's."""

    streams, peer_resets = 1, False          # both ways; whether the peer lists RE-CONFIG

    def __init__(self, name, options, mode='data-pr', limit=1500, fragment=4, trip=100, rwnd=65536, opens=True, begins=0):
        self.name, self.mode, self.parts = name, mode, []
        self.words = ' '.join(('caller %d %d 65536 %d %s %s 5000 5001' % (limit, fragment, self.streams, mode, options)).split())
        self.lines, self.common, self.said = [], None, []
        self.start()
        if begins:
            self.at(begins)
        self.calls(rwnd)
        if opens:
            self.at(begins + trip).cookie_ack()

    def start(self):
        self.session = end.Session(end.end_of([word.encode() for word in self.words.split(' ')]), self.said.append)

    # ---- Lines: as they stand in the case, and what they say ----

    def line(self, text, times=1, shown=None):
        """This line, so often."""
        is_first = self.common is not None and not any(said for _, said in self.lines)
        shown = shown or ['%s %s' % ('>' if times == 1 else '*%d' % times, text)]
        self.lines.append((['/' * is_first + shown[0], *shown[1:]], [text] * times))
        return self.run(self.lines[-1:])

    def run(self, lines):
        for _, said in lines:
            for text in said:
                self.session.line(text.encode(), 0)
        return self

    def alternative(self):
        """From here on these are the lines of an alternative; what stands before the first one is the beginning of each."""
        if self.common is None:
            self.common = self.lines
        else:
            self.parts += self.lines
            self.start()
            self.run(self.common)
        self.lines = []
        return self

    def text(self):
        lines = (self.common or []) + self.parts + self.lines
        return '\n'.join(['= ' + self.name, '$ sctp-end ' + self.words, *(text for shown, _ in lines for text in shown)]) + '\n'

    # ---- The user and the clock ----

    def send(self, length=4, until='-'):
        text = 'send 0 o 0 %s ' % until
        shown = ['- ' + text, 'x%d 61' % length] if length > 8 else None
        return self.line(text + '61' * length, shown=shown)

    def build(self, times=1):
        return self.line('build', times)

    def at(self, moment):
        return self.line('at %d' % moment)

    def look(self):
        for line in LOOK:
            self.line(line)
        return self

    # ---- The peer ----

    def comes(self, remark, *chunks, tag=OWN_TAG):
        self.lines.append((['  ' + remark], []))
        return self.line('packet ' + wire.packet(5001, 5000, tag, chunks).hex())

    def calls(self, rwnd):
        self.line('connect %d %d' % (OWN_TAG, OWN_TSN)).build()
        parameters = [item(wire.STATE_COOKIE, bytes(4))]
        parameters += [item(wire.FORWARD_SUPPORTED)] if wire.FORWARD_TSN in OPTIONS[self.mode] else []
        extensions = OPTIONS[self.mode] + (wire.RE_CONFIG,) * self.peer_resets
        parameters += [item(wire.SUPPORTED_EXTENSIONS, bytes(extensions))] if extensions else []
        value = wire.init_value(PEER_TAG, rwnd, self.streams, self.streams, PEER_TSN, parameters)
        self.comes('INIT ACK rwnd %d' % rwnd, chunk(wire.INIT_ACK, value)).build()

    def cookie_ack(self):
        return self.comes('COOKIE ACK', chunk(wire.COOKIE_ACK))

    def sack(self, tsn, *blocks, rwnd=65536):
        return self.sacks((tsn, *blocks), rwnd=rwnd)

    def sacks(self, *told, rwnd=65536):
        """Several in one packet."""
        words = ['SACK %d%s' % (tsn, ' [%s]' % ','.join('%d-%d' % block for block in blocks) if blocks else '') for tsn, *blocks in told]
        chunks = [wire.sack_chunk(tsn, rwnd, blocks, []) for tsn, *blocks in told]
        return self.comes(', '.join(words) + (' rwnd %d' % rwnd if rwnd != 65536 else ''), *chunks)

    def shutdown(self, tsn):
        return self.comes('SHUTDOWN %d' % tsn, chunk(wire.SHUTDOWN, struct.pack('>I', tsn)))

    def data(self, tsn=PEER_TSN):
        return self.comes('DATA %d' % tsn, wire.data_chunk(self.mode.startswith('idata'), 3, tsn, 0, tsn - PEER_TSN, 0, b'a'))

    # ---- Usual beginnings ----

    def loses_first(self, last=4):
        """Three SACKs of a loss, the third of which covers up to `last`."""
        for offset in range(last - 2, last + 1):
            self.sack(999, (2, offset))
        return self
