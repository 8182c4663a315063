#!/usr/bin/env python3
"""Cases of crates/sctp_rows with `sctp-end`: stream resets (RFC 6525), byte for byte, and RE-CONFIG chunks of every form.

`reset_cases.py` prints them; `rows.py` has what the model answers to them. Behind it `reset_rows.py --rows` prints those of two ends.
"""

import struct

import progress_cases
import wire
from case_of_end import OWN_TAG, OWN_TSN, PEER_TAG, PEER_TSN
from counts_cases import KEY
from reset_case import ANSWERED, Resetting
from wire import chunk, item, reconfig_chunk, reset_request, reset_response


def own():
    made = Resetting('a stream is reset: the request, its response, and SSN 0 again').send().build().sack(1000).resets(0).build().look()
    made.responds(1000, 1).look().send().build().sack(1001).resets(0, 1).build()
    yield made.responds(1000, 1).responds(1002, 1).responds(1001, 0).line('send 1 u 0 - 61').build()
    made = Resetting('a stream is reset: each result, and a number that no request has').resets(0).build()
    for code in (0, 1, 2, 3, 4, 5, 6, 7, 2**32 - 1):
        made.alternative().responds(1000, code).look().send().build().at(1100).build().resets(0).build().send()
    yield made.alternative().responds(999, 1).responds(1001, 1).responds(0, 1).look().send().at(1100).build()
    made = Resetting('responses to requests that were never made').responds(999, 1).responds(1000, 1).responds(1000, 6).look().build()
    yield made.resets(1).build().responds(1001, 1).responds(1000, 2).look().build().line('send 1 o 0 - 61').line('send 0 o 0 - 61').build()
    made = Resetting('a request that isn\'t answered goes again after 1, 2, 4, .. seconds, ten times').resets(2).build().line('next')
    moment, wait = 100, 1000
    for _ in range(11):
        moment, wait = moment + wait, min(2 * wait, 60_000)
        made.at(moment).build().line('next')
    yield made.look()
    made = Resetting('a request that is due, and is answered, goes no more').resets(2).build().at(1100).responds(1000, 1).build().look()
    yield made.line('send 2 o 0 - 61').resets(2).build()
    made = Resetting('the request waits for all of its stream: what is queued, sent, or missing', limit=576)
    made.send(1).line('send 1 o 0 - 62').line('send 0 u 0 - 63').resets(0).build().sack(1000).build().sack(1000, (2, 2)).build()
    yield made.sack(1002).build().look()
    made = Resetting('I-DATA: a stream in the middle of a message isn\'t reset', mode='idata', fragment=500, limit=576)
    made.line('send 0 o 0 - ' + '61' * 1200).resets(0, 1).build().build().responds(1000, 1).build().sack(1002).build().look()
    yield made.responds(1001, 1).line('send 0 u 0 - 62').line('send 0 o 0 - 63').build()
    made = Resetting('abandoned messages: what isn\'t acknowledged by a FORWARD-TSN holds the request', mode='data-pr').send().build()
    yield made.resets(0).build().line('abandon 1').build().sack(1000).build().look()
    made = Resetting('withdrawn messages hold no request', mode='data-pr').send().resets(0).line('abandon 1').build()
    yield made.responds(1000, 1).send().build()
    made = Resetting('a request goes with what else is due: behind a SACK, before data').message(500, 0).resets(1).send().build()
    yield made.at(1100).build().sack(1000).responds(1000, 6).message(501, 1).send().at(2100).build()


def of_peer():
    made = Resetting('the peer resets: its response, and what is reported').message(500, 0).build().asks(500, 500, 0).build().tells().tells()
    made.message(501, 0).build().line('take 0').line('take 0').line('take 0').message(502, 1).line('take 0').build()
    yield made.asks(501, 502, 1, 2).build().tells().tells().tells().asks(502, 502).build().tells().tells().tells().tells().build()
    made = Resetting('the peer resets: the row of each request in turn')
    rows = ((500, 499, 0), (500, 499, 0, 0), (500, 499), (500, 499, 3), (500, 499, 0, 3), (500, 499, 65535), (500, 500, 0), (500, 501), (500, 499 + 2**31 - 1, 0),
            (500, 499 + 2**31, 0), (500, 499 + 2**31 + 1, 0), (500, 498, 0), (500, 0, 0), (500, 500, 3))
    for number, last, *streams in rows:
        made.alternative().asks(number, last, *streams).build().tells().build()
    yield made
    made = Resetting('the peer resets: numbers that aren\'t the next one')
    for number in (499, 498, 501, 502, 0, 2**31 + 500, 2**32 - 1):
        made.alternative().asks(number, 499, 0).build().tells().asks(500, 499, 0).build().tells()
    yield made
    made = Resetting('the peer\'s last request again: the response that it had, whatever it says then').asks(500, 499, 0).build().tells()
    for number, last, *streams in ((500, 499, 0), (500, 499, 1), (500, 600, 1), (500, 499, 7), (501, 499, 0), (499, 499, 0)):
        made.alternative().asks(number, last, *streams).build().tells().build()
    yield made
    made = Resetting('the peer\'s request is in progress: the same number again is looked at afresh').asks(500, 500, 0).build().tells()
    made.alternative().asks(500, 500, 0).build().message(500, 0).build().asks(500, 500, 0).build().tells()
    made.alternative().message(500, 0).asks(501, 500, 0).build().tells()
    made.alternative().asks(500, 499, 1).build().tells().asks(500, 499, 0).build().tells()
    made.alternative().asks(500, 500, 3).build().tells().message(500, 0).asks(500, 500, 0).build().tells()
    yield made.alternative().asks(499, 499, 0).build().asks(502, 499, 0).build().tells()
    made = Resetting('requests of other kinds are denied, each with its number; too short ones are skipped')
    for kind, named in ((14, 'Incoming SSN Reset Request'), (15, 'SSN/TSN Reset Request'), (17, 'Add Outgoing Streams'), (18, 'Add Incoming Streams')):
        for size in (0, 3, 4, 5, 7, 8, 9, 12):
            value = (struct.pack('>I', 500) + bytes(8))[:size]
            made.alternative().reconfig('%s, %d bytes' % (named, size), item(kind, value)).build().asks(501, 499, 0).build().tells()
    yield made
    made = Resetting('requests of other kinds in one chunk, each in its turn')
    made.reconfig('14, 15, 17, 18', *(item(kind, struct.pack('>II', 500 + n, 0)) for n, kind in enumerate((14, 15, 17, 18)))).build()
    yield made.asks(503, 499, 0).asks(504, 499, 0).build().tells()
    made = Resetting('parameters of other types are skipped')
    yield made.reconfig('types 0, 12, 19, 7, 0xC000; then a request', item(0), item(12, b'abc'), item(19, bytes(8)), item(7, bytes(4)), item(0xC000),
                        reset_request(500, ANSWERED, 499, [1])).build().tells().build()


def mixed():
    made = Resetting('a response and a request in one chunk, in either order').resets(0).build()
    made.alternative().reconfig('response 1000: 1, request 500', reset_response(1000, 1), reset_request(500, 1000, 499, [0])).build().tells().send()
    made.alternative().reconfig('request 500, response 1000: 1', reset_request(500, 1000, 499, [0]), reset_response(1000, 1)).build().tells().send()
    yield made.alternative().reconfig('request 500, response 1000: 6', reset_request(500, 1000, 500, [0]), reset_response(1000, 6)).build().at(1100).build()
    made = Resetting('a request goes again: while the peer\'s is in progress it repeats the number before it, and once that is finished its number')
    made.resets(0).build().asks(500, 500, 1).build().at(1100).build().message(500, 0).asks(500, 500, 1).build().tells().at(3100).build()
    made.asks(501, 501, 2).asks(502, 501, 2).build().at(7100).build().message(501, 1).build().asks(503, 501, 2).build().tells().at(15100).build()
    yield made.asks(504, 501, 3).build().at(31100).build().responds(1000, 1).resets(1).asks(505, 502, 1).build().look()
    made = Resetting('a request behind the data that it waits for, and before it')
    last = reconfig_chunk([reset_request(500, ANSWERED, 500, [0])])
    piece = wire.data_chunk(False, 3, 500, 0, 0, 0, b'a')
    made.alternative().comes('DATA 500, RE-CONFIG: request 500 last 500', piece, last).build().tells().line('take 0')
    yield made.alternative().comes('RE-CONFIG: request 500 last 500, DATA 500', last, piece).build().tells().line('take 0').asks(500, 500, 0).build().tells()
    made = Resetting('responses that wait: as many as fit a packet, and the others aren\'t given', limit=576)
    yield made.line('packet ' + packet(*[reconfig_chunk([reset_request(500, ANSWERED, 499, [0])])] * 60)).build().build().asks(500, 499, 0).build()
    made = Resetting('in a packet behind a request that isn\'t in its turn all else acts')
    yield made.comes('RE-CONFIG: request 7 last 499, DATA 500', reconfig_chunk([reset_request(7, ANSWERED, 499, [0])]), piece).build().line('take 0').tells()


def packet(*chunks):
    return wire.packet(5001, 5000, OWN_TAG, chunks).hex()


def cut():
    """A RE-CONFIG cut at each byte: of its value, and of its parameter."""
    whole = reset_request(500, ANSWERED, 499, [0, 1, 2])
    made = Resetting('a request cut at each byte: its value isn\'t a list of parameters, and nothing is done')
    for size in range(len(whole) + 1):
        made.alternative().comes('%d bytes of the value' % size, chunk(wire.RE_CONFIG, whole[:size])).build().tells()
    yield made
    made = Resetting('a request whose parameter is cut at each byte: without its last TSN it is skipped, and an odd byte counts for nothing')
    for size in range(4, len(whole) + 2):
        made.alternative().reconfig('a parameter of %d bytes' % size, item(wire.OUTGOING_RESET, (whole + b'\0')[4:size])).build().tells().tells()
    yield made
    response = reset_response(1000, 1)
    made = Resetting('a response cut at each byte').resets(0).build()
    for size in range(len(response) + 1):
        made.alternative().comes('%d bytes of the value' % size, chunk(wire.RE_CONFIG, response[:size])).send()
    for size in range(4, len(response)):
        made.alternative().reconfig('a parameter of %d bytes' % size, item(wire.RECONFIG_RESPONSE, response[4:size])).send()
    yield made.alternative().reconfig('a parameter of 20 bytes', item(wire.RECONFIG_RESPONSE, response[4:] + bytes(8))).send()
    two = wire.item_list([reset_response(1000, 1), reset_request(500, 1000, 499, [0])])
    made = Resetting('a response and a request cut at each byte').resets(0).build()
    for size in range(len(response), len(two)):
        made.alternative().comes('%d bytes of the value' % size, chunk(wire.RE_CONFIG, two[:size])).send().tells()
    yield made
    made = Resetting('the length of a request\'s parameter: each one that there may be')
    for length in (0, 3, 4, 15, 16, 17, 18, 19, 20, 21, 22, 23, 24, 65535):
        value = whole[:2] + struct.pack('>H', length) + whole[4:]
        made.alternative().comes('length %d' % length, chunk(wire.RE_CONFIG, value)).build().tells().tells()
    yield made
    made = Resetting('flags of a RE-CONFIG count for nothing, and padding may be counted')
    made.comes('flags 255', chunk(wire.RE_CONFIG, reset_request(500, ANSWERED, 499, [0]), 255)).build().tells()
    yield made.comes('the padding counted', chunk(wire.RE_CONFIG, wire.pad(reset_request(501, ANSWERED, 499, [0])))).build().tells()


class Listener(Resetting):
    """A listener, which the peer opens."""

    def start(self):
        if self.words.startswith('caller'):
            self.words = self.words.replace('caller', 'listener', 1) + ' ' + KEY
        super().start()

    extensions = (wire.RE_CONFIG,)

    def calls(self, rwnd):
        self.line('draw %d %d' % (OWN_TAG, OWN_TSN))
        parameters = [item(wire.SUPPORTED_EXTENSIONS, bytes(self.extensions))] if self.extensions else []
        self.comes('INIT', chunk(wire.INIT, wire.init_value(PEER_TAG, rwnd, 3, 3, PEER_TSN, parameters)), tag=0)
        answer = wire.Packet(bytes.fromhex(self.said[-1].split(' ')[1]))
        self.cookie = wire.Opening(answer.chunks[0]).cookie

    def echoes(self, remark, options, made=0, size=72):
        """A COOKIE ECHO with these options; its MAC is right."""
        cookie = wire.Cookie(made, 5000, 5001, OWN_TAG, PEER_TAG, OWN_TSN, PEER_TSN, 65536, 3, 3, options)
        return self.comes('COOKIE ECHO: ' + remark, chunk(wire.COOKIE_ECHO, cookie.seal(bytes.fromhex(KEY))[:size]))

    def cookie_ack(self):
        return self.comes('COOKIE ECHO', chunk(wire.COOKIE_ECHO, self.cookie))


class Unlisted(Listener):
    """The same, by a peer that doesn't list RE-CONFIG."""

    extensions = ()


def opening():
    yield Listener('a listener: the cookie says that streams may be reset').resets(0).build().asks(500, 499, 0).build().tells()
    yield Unlisted('a listener whose peer doesn\'t list RE-CONFIG').resets(0).build().asks(500, 499, 0).build().tells()
    yield Listener('a listener that isn\'t set up for it, and a peer that lists it', '').resets(0).build().asks(500, 499, 0).build().tells()
    made = Listener('cookies with each option: a listener that may reset streams', opens=False)
    for options in range(10):
        made.alternative().echoes('options %d' % options, options).line('state').resets(0)
    made.alternative().at(60_001).echoes('options 4, late', 4).line('state')
    made.alternative().cookie_ack().echoes('options 0, again', 0).echoes('options 4, again', 4).build()
    yield made
    made = Listener('cookies with each option: a listener that may not', '', opens=False)
    for options in range(10):
        made.alternative().echoes('options %d' % options, options).line('state').resets(0)
    made.alternative().at(60_001).echoes('options 4, late', 4).line('state')
    yield made.alternative().cookie_ack().echoes('options 4, again', 4).build()
    made = Resetting('a caller and the lists of its peer', opens=False)
    yield made
    for mode in ('data', 'data-pr', 'idata', 'idata-pr'):
        yield Resetting('the INIT of a caller that may reset streams, and what it agrees on: ' + mode, mode=mode).resets(0).build().line('status')


def states():
    made = Resetting('a request of the peer in each state', opens=False).asks(500, 499, 0).line('state').build()
    made.alternative().cookie_ack().asks(500, 499, 0).build().tells()
    made.alternative().cookie_ack().send().build().line('shutdown').line('state').asks(500, 499, 0).build().tells().resets(1)
    made.alternative().cookie_ack().line('shutdown').build().line('state').asks(500, 499, 0).build().tells().resets(1)
    made.alternative().cookie_ack().send().build().shutdown(999).line('state').asks(500, 499, 0).build().tells().resets(1)
    made.alternative().cookie_ack().shutdown(999).build().line('state').asks(500, 499, 0).build().tells().resets(1)
    yield made.alternative().cookie_ack().line('abort -').line('state').asks(500, 499, 0).build().tells().resets(1)
    made = Resetting('a response in each state').resets(0).build()
    made.alternative().line('shutdown').line('state').line('next').responds(1000, 1).build().line('next')
    made.alternative().line('send 1 o 0 - 61').build().line('shutdown').line('state').responds(1000, 6).line('next').at(5000).build()
    made.alternative().line('send 1 o 0 - 61').build().shutdown(999).line('state').responds(1000, 1).line('next').build()
    yield made.alternative().line('abort -').responds(1000, 1).line('state').line('next')
    made = Resetting('what waits in an association that is over is still reported').asks(500, 499, 0).line('abort -').tells().tells()
    yield made
    made = Resetting('a response waits, and goes in the states of closing too').asks(500, 499, 0).line('shutdown').build().tells()
    yield made


def main():
    for cases in (own, progress_cases.own, progress_cases.waits, of_peer, progress_cases.of_peer, mixed, cut, opening, states):
        for made in cases():
            print(made.text())


if __name__ == '__main__':
    main()
