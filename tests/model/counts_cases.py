#!/usr/bin/env python3
"""Cases for crates/sctp_rows with `sctp-end`: the line `counts`.

`counts_cases.py` prints them; `rows.py` has what the model answers to them.
"""

import wire
from case_of_end import OWN_TAG, PEER_TAG, Case
from wire import chunk, item

KEY = '00' * 32


class Counted(Case):
    """A caller whose counts are asked."""

    def counts(self):
        return self.line('counts')


class Listener(Counted):
    """The same of a listener, which the peer opens."""

    def start(self):
        if self.words.startswith('caller'):
            self.words = self.words.replace('caller', 'listener', 1) + ' ' + KEY
        super().start()

    def calls(self, rwnd):
        self.line('draw %d 1000' % OWN_TAG).counts()
        self.comes('INIT', chunk(wire.INIT, wire.init_value(PEER_TAG, rwnd, 1, 1, 500, [])), tag=0).counts()
        answer = wire.Packet(bytes.fromhex(self.said[-2].split(' ')[1]))
        self.cookie = wire.Opening(answer.chunks[0]).cookie

    def cookie_ack(self):
        return self.comes('COOKIE ECHO', chunk(wire.COOKIE_ECHO, self.cookie)).counts()


def packets():
    made = Counted('counts of a caller: packets and bytes, out and in', '').counts()
    made.send().counts().build().counts().build().data().build().counts().sack(1000).counts().line('take 0').counts()
    yield made.line('shutdown').build().counts().comes('SHUTDOWN ACK', chunk(wire.SHUTDOWN_ACK)).line('state').counts()
    made = Listener('counts of a listener: an INIT, which it answers, and a cookie', '')
    yield made.build().counts().comes('INIT', chunk(wire.INIT, wire.init_value(5, 65536, 1, 1, 1, [])), tag=0).counts()
    made = Listener('counts of packets that are dropped, by the reason', '', opens=False)
    made.line('packet -').counts().comes('COOKIE ECHO that doesn\'t open', chunk(wire.COOKIE_ECHO, bytes(72))).counts()
    made.line('packet ' + wire.packet(5001, 80, OWN_TAG, [chunk(wire.COOKIE_ACK)]).hex()).counts()
    made.comes('COOKIE ACK', chunk(wire.COOKIE_ACK)).counts().cookie_ack()
    yield made.comes('COOKIE ACK, another tag', chunk(wire.COOKIE_ACK), tag=8).counts().comes('COOKIE ACK', chunk(wire.COOKIE_ACK)).counts()
    made = Counted('counts of an ABORT, and of what a closed endpoint answers', '').line('abort 0102').counts().line('abort 01').counts()
    yield made.data().counts().comes('ABORT', chunk(wire.ABORT)).counts()
    made = Counted('counts of a COOKIE ECHO that goes again, and of an ABORT', '', opens=False)
    yield made.counts().at(1000).build().counts().line('abort -').counts()


def sacks():
    made = Counted('counts of SACKs in: three in a packet, out of date, behind a chunk that ends the packet', '').counts()
    made.send().build().sacks((999,), (999,), (1000,)).counts().sack(999).counts()
    yield made.comes('type 63, SACK 1000', chunk(63), wire.sack_chunk(1000, 65536, [], [])).counts()
    made = Counted('SACKs in a packet that is dropped or answered don\'t count', '').send().build()
    made.alternative().line('shutdown').sack(1000).build().sack(1000).counts().comes('SACK 1000, DATA 500', *both(1000, b'a')).counts()
    made.alternative().sack(1001).counts()
    yield made.alternative().comes('SACK 1000, DATA 500 without data', *both(1000, b'')).counts()
    made = Counted('counts of SACKs out: one that waits counts once it goes', 'delay').data().build().counts().at(300).build().counts()
    yield made.data(501).data(502).build().counts().data(502).send().build().counts()


def both(tsn, data):
    return wire.sack_chunk(tsn, 65536, [], []), wire.data_chunk(False, 3, 500, 0, 0, 0, data)


def fragments():
    yield Counted('counts of fragments: sent first, and again by the timer', '').send(20).build().counts().at(1100).build().counts().at(3100).build().counts()
    made = Counted('counts of fragments: again by misses, and by the timer', 'fast-retransmit').send(20).build()
    made.loses_first().counts().build().counts().at(1100).build().counts()
    yield made.sack(999, (3, 3)).sack(999, (3, 4)).sack(999, (3, 5)).build().counts()
    made = Counted('what was missed three times counts as fast, also if the timer had marked it', 'congestion-control', mode='data', limit=576, fragment=260)
    made.send(2600).build(5).at(1100).build().counts().sack(999, (3, 3)).sack(999, (3, 4)).sack(999, (3, 5)).counts()
    yield made.build().counts().build(5).counts()
    made = Counted('counts of abandoned messages: not those that were withdrawn, and each once', '').send().line('abandon 1').counts()
    yield made.send(4, 'x0').send().build().line('abandon 3').line('abandon 3').counts().at(1100).counts().build().counts().line('abort -').counts()


def main():
    for cases in (packets, sacks, fragments):
        for made in cases():
            print(made.text())


if __name__ == '__main__':
    main()
