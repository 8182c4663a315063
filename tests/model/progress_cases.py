"""Cases of requests that are in progress, of their waits, and of requests that say the same (RFC 6525, 5.2.2 and 5.2.7)."""

import struct

from reset_case import Resetting
from wire import item


def own():
    made = Resetting('a peer whose response is always that a request is in progress isn\'t given up: its timer sends it with the next number').resets(2).build()
    moment = 100
    for turn in range(13):
        made.at(moment + 600).responds(1000 + turn, (6, 4)[turn % 2]).line('next')
        moment += 1600
        made.at(moment - 1).build().at(moment).build().line('next')
    yield made.look().responds(1012, 1).look().responds(1013, 1).look()
    made = Resetting('a request in progress: its timer starts again, with its first wait, and it goes once that expires').resets(2).build()
    yield made.at(3000).line('next').build().line('next').at(3500).responds(1000, 6).line('next').build().at(4499).build().at(4500).build().line('next')
    made = Resetting('a request that is due, and is in progress, goes at once with its number, and then with the next one').resets(2).build().at(1100).line('next')
    yield made.responds(1000, 6).line('next').build().line('next').at(2100).build().line('next').responds(1000, 1).line('next').responds(1001, 1).line('next')
    made = Resetting('in progress, and then a response under each number: before its timer expires, once it is due again, and once it was sent').resets(2).build()
    made.responds(1000, 6)
    for number in (1000, 1001):
        for code in (1, 2, 4, 5, 6):
            made.alternative().responds(number, code).line('next').send(2).at(1100).build().look()
            made.alternative().at(1100).responds(number, code).line('next').send(2).build().look()
            made.alternative().at(1100).build().responds(number, code).line('next').send(2).at(2200).build().look()
    yield made
    made = Resetting('a peer that doesn\'t count a request in progress: behind a bad number the one before is tried again').resets(2).build()
    made.responds(1000, 6).at(1100).build().responds(1001, 5).line('next').build().at(2099).build().at(2100).build().line('next')
    made.alternative().responds(1000, 1).send(2).resets(2).build()
    made.alternative().responds(1000, 5).send(2).look().resets(2).build()
    made.alternative().responds(1001, 5).responds(1001, 1).look().responds(1000, 6).at(3100).build().responds(1001, 6).at(4100).build().responds(1002, 1).send(2)
    made.alternative().responds(1001, 6).responds(1001, 5).at(3100).build().responds(1000, 1).send(2)
    yield made
    made = Resetting('a stream is reset again and again: with nothing sent between every second request names its first stream twice').resets(0, 2).build()
    for number in range(1000, 1003):
        made.responds(number, 1).resets(0, 2).build()
    yield made.responds(1003, 2).resets(0, 2).build().responds(1004, 1).send(2).build().sack(1000).resets(0, 2).build().responds(1005, 1).resets(0).build()


def waits():
    """The wait of a request is the RTO, if one was measured: here by the handshake, 100 ms (SRTT 100, RTTVAR 50: 300 ms)."""
    for options, name in (('fast-retransmit reset', 'RTO.Min of a second'), ('fast-retransmit reset rto-min 10', 'RTO.Min of 10 ms')):
        made = Resetting('the wait of a request: ' + name, options).resets(2).build().line('next').at(1100).build().line('next').at(1101)
        yield made.responds(1000, 6).line('next').at(2101).build().line('next')
    made = Resetting('the wait of a request is measured anew by each message', 'fast-retransmit reset rto-min 10').send().build().at(110).sack(1000)
    yield made.resets(0).build().line('next').at(400).build().line('next').responds(1000, 6).line('next')


def of_peer():
    yield performed_before()
    made = Resetting('the peer\'s request is in progress under three numbers, and performed under the last: that is reported once').asks(500, 500, 0)
    made.asks(501, 500, 0).asks(502, 500, 0).message(500, 0).asks(502, 500, 0).build().tells().asks(503, 500, 0).build().tells().tells()
    yield made.line('take 0').line('take 0').message(501, 0).line('take 0')


def performed_before():
    """In progress under 500, performed under 500, and the peer didn't know."""
    made = Resetting('the peer\'s request was in progress, was performed, and comes with the next number: it is performed, and not reported again')
    made.asks(500, 500, 0, 1).message(500, 0).asks(500, 500, 0, 1).build().tells().tells().tells()
    made.alternative().asks(501, 500, 0, 1).build().tells().message(501, 0).line('take 0').line('take 0').asks(502, 500, 0, 1).build().tells().tells().tells()
    for remark, number, last, *streams in (('another last TSN', 501, 499, 0, 1), ('other streams', 501, 500, 0), ('another order', 501, 500, 1, 0),
                                           ('the first one twice', 501, 500, 0, 0, 1), ('all streams', 501, 500), ('its own number', 500, 500, 0, 1)):
        made.alternative().asks(number, last, *streams).build().tells().tells().tells().tells()
    made.alternative().asks(501, 501, 0, 1).build().asks(502, 500, 0, 1).build().tells().tells().tells()
    made.alternative().reconfig('14, denied', item(14, struct.pack('>II', 501, 0))).asks(502, 500, 0, 1).build().tells().tells().tells()
    made.alternative().asks(501, 500, 3).build().asks(502, 500, 0, 1).build().tells().tells().tells()
    return made.alternative().asks(501, 500, 0, 1).asks(501, 500, 0, 1).asks(502, 501, 0).message(501, 0).asks(502, 501, 0).build().tells().tells()
