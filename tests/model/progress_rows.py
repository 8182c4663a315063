"""Rows of requests that are in progress, of their timer, and of requests that say the same (RFC 6525, 5.1.1, 5.2.2 and 5.2.7)."""

from reset_row import Row, data, request, reset_begins, responses, sack


def begins(name):
    """TSN 2, on stream 1, is missing (packet 2); the request to reset stream 0 arrives (packet 3): in progress (B's packet 2)."""
    made = Row(name, streams=2).send(ticket=1).goes('A', 32).goes('B', 28).send(1, '62', ticket=2).build('A', 32).says('reset A 0', 'ok')
    return made.build('A', 36, request(1, 0, 2, 0)).comes('A').says('resets B', 'no-reset B').build('B', 28, responses((1, 6)))


def performs_first(made):
    """What is missing arrives, and the request again under its number: it is performed, and that is reported."""
    made.comes('A', 2).comes('A', 3).says('resets B', 'reset B 0 1').says('resets B', 'no-reset B')
    return made.build('B', 44, sack(2, 0xfffe) + responses((1, 1))).comes('B')


def in_progress():
    made = begins('a request waits for all up to its last TSN; the same one again is looked at afresh')
    performs_first(made).send(byte='63', ticket=3)
    made = begins('a request in progress is repeated with the next number').comes('B').build('A').says('at 999', 'ok').build('A').says('at 1000', 'ok')
    made.build('A', 56, request(2, 0, 2, 0) + data(2, 1, 0, '62')).comes('A').says('resets B', 'no-reset B')
    made.build('B', 44, sack(2, 0xfffe) + responses((2, 6))).comes('B').build('A').says('at 1999', 'ok').build('A').says('at 2000', 'ok')
    made.build('A', 36, request(3, 0, 2, 0)).comes('A').says('resets B', 'reset B 0 1').build('B', 28, responses((3, 1))).comes('B').send(byte='63', ticket=3)
    made = begins('a request in progress keeps its number until its timer expires: till then success under it counts').comes('B')
    performs_first(made).send(byte='63', ticket=3).goes('A', 32, data(3, 0, 0, '63')).message(0, 0, '61').message(0, 1, '63')
    made = begins('success under the number before isn\'t the next one\'s: that is delayed, performed, and not reported again').comes('B').says('at 1000', 'ok')
    made.build('A', 56, request(2, 0, 2, 0) + data(2, 1, 0, '62'))
    performs_first(made).says('send A 0 o 0 - 63', 'refused 8').comes('A', 4).says('resets B', 'no-reset B')
    made.build('B', 48, sack(2, 0xfffe, 2) + responses((2, 1))).comes('B').send(byte='63', ticket=3).goes('A', 32, data(3, 0, 0, '63')).comes('A', 4)
    made.says('resets B', 'no-reset B').message(0, 0, '61').message(0, 1, '63').goes('B', 48)
    made.send(byte='64', ticket=4).goes('A', 32, data(4, 0, 1, '64')).message(0, 2, '64')
    made = begins('success under the number before, and the next one wasn\'t sent: it goes, and the request after it is in its turn').comes('B').says('at 1000', 'ok')
    performs_first(made).says('send A 0 o 0 - 63', 'refused 8').build('A', 36, request(2, 0, 2, 0)).comes('A').says('resets B', 'no-reset B')
    made.goes('B', 28, responses((2, 1))).send(byte='63', ticket=3).goes('A', 32, data(3, 0, 0, '63')).goes('B', 28).says('reset A 0', 'ok')
    made.build('A', 36, request(3, 0, 3, 0)).comes('A').says('resets B', 'reset B 0 2').goes('B', 28, responses((3, 1))).send(byte='64', ticket=4)


def forwards():
    made = Row('the request names the last TSN assigned: a FORWARD built before is read under the old numbers', streams=2, mode='data-pr')
    for byte, stream in (('61', 0), ('62', 0), ('63', 1)):
        made.send(stream, byte).build('A', 32)
    made.comes('A', 1).goes('B', 28, sack(1, 0xffff)).says('abandon A 2', 'fate A 2').says('abandon A 3', 'fate A 2')
    made.build('A', 28, 'c0000010 00000003 0000 0001 0001 0000').comes('A', 2).goes('B', 28, sack(2, 0xfffe)).build('A', 24, 'c000000c 00000003 0001 0000')
    made.says('reset A 0', 'ok').build('A', 36, request(1, 0, 3, 0)).comes('A').goes('B', 28, responses((1, 6))).comes('A', 4)
    made.says('send A 0 o 0 - 64', 'refused 8').goes('B', 28, sack(3, 0xfffe)).says('at 1000', 'ok').build('A', 36, request(2, 0, 3, 0)).comes('A')
    made.says('resets B', 'reset B 0 2').goes('B', 28, responses((2, 1))).send(byte='64', ticket=4).goes('A', 32, data(4, 0, 0, '64'))
    made.message(0, 0, '61').message(0, 1, '62').message(0, 2, '64')
    made = Row('a FORWARD that is late by a reset skips nothing', streams=2, mode='data-pr')
    made.send(ticket=1).send(byte='62', ticket=2)
    made.build('A', 52).send(1, '63', ticket=3).build('A', 32)                  # packets 1 (TSNs 1 and 2) and 2 (TSN 3)
    made.foreign('A', sack(1, 0xffff)).says('abandon A 2', 'fate A 2').says('abandon A 3', 'fate A 2')
    made.build('A', 28, 'c0000010 00000003 0000 0001 0001 0000')                # packet 3: FORWARD to 3, kept back
    made.foreign('A', sack(2, 0xfffe)).build('A', 24, 'c000000c 00000003 0001 0000').says('reset A 0', 'ok')
    made.build('A', 36, request(1, 0, 3, 0)).comes('A', 5).says('resets B', 'no-reset B').build('B', 28, responses((1, 6)))
    made.comes('A', 3).comes('A', 5).says('resets B', 'reset B 0 0').build('B', 44, sack(3, 0x10000) + responses((1, 1))).comes('B')
    made.send(byte='64', ticket=4).send(byte='65', ticket=5).build('A', 52, data(4, 0, 0, '64') + data(5, 0, 1, '65')).comes('A', 6).comes('A', 3)
    made.message(0, 2, '64').message(0, 3, '65')


# ---- Requests that say the same ----

def again(made, number, waiting, *streams):
    """Stream 0 is reset once more, by a request that names these, and so many messages wait at the peer."""
    made.says('reset A 0', 'ok').build('A', 36, request(number, 0, 2, *streams)).comes('A').says('resets B', 'reset B 0 %d' % waiting).says('resets B', 'no-reset B')
    return made.goes('B', 28, responses((number, 1)))


def said_again():
    made = begins('a stream is reset again, with nothing sent between, and "in progress" was lost: it is named twice, and each reset is reported')
    made.comes('A', 2).says('at 1000', 'ok').build('A', 56, request(1, 0, 2, 0) + data(2, 1, 0, '62')).comes('A').says('resets B', 'reset B 0 1')
    made.build('B', 48, sack(2, 0xfffe, 2) + responses((1, 1))).comes('B')
    again(again(again(made, 2, 1, 0, 0), 3, 1, 0), 4, 1, 0, 0).send(byte='63', ticket=3).goes('A', 32, data(3, 0, 0, '63'))
    made = begins('a stream is reset again, and a message was sent between: it is named once, and each reset is reported').comes('A', 2).comes('A', 3)
    made.says('resets B', 'reset B 0 1').build('B', 44, sack(2, 0xfffe) + responses((1, 1))).comes('B').send(byte='63', ticket=3).goes('A', 32).goes('B', 28)
    made.says('reset A 0', 'ok').build('A', 36, request(2, 0, 3, 0)).comes('A').says('resets B', 'reset B 0 2').goes('B', 28, responses((2, 1))).send(ticket=4)
    made = Row('a request that names other streams than the last one names each once', streams=3)
    for number, asked in enumerate(((0, 1, 2), (1, 2), (2,), (1,), (1, 2)), 1):
        for stream in asked:
            made.says('reset A %d' % stream, 'ok')
        made.goes('A', 40 if len(asked) == 3 else 36, request(number, 0, 0, *asked)).goes('B', 28, responses((number, 1)))
    made = Row('256 streams are reset again: the first is named twice, and the last by the request after that', streams=300)
    asks_all(made, 1, range(256), range(256))
    asks_all(made, 2, range(256), (0, *range(255)))
    made.goes('A', 36, request(3, 0, 0, 255)).goes('B', 28, responses((3, 1))).build('A').send(255, ticket=1)


def asks_all(made, number, streams, named):
    for stream in streams:
        made.says('reset A %d' % stream, 'ok')
    made.build('A', 544, request(number, 0, 0, *named)).comes('A').goes('B', 28, responses((number, 1)))


# ---- The timer ----

def repeats(made, moment, wait, number):
    """From then on the request goes ten times, each time after twice the wait, and then the association is over."""
    for _ in range(10):
        moment, wait = moment + wait, min(2 * wait, 60000)
        made.says('at %d' % (moment - 1), 'ok').build('A').says('at %d' % moment, 'ok').build('A', 36, request(number, 0, 1, 0))
    made.says('at %d' % (moment + wait - 1), 'ok').build('A').says('at %d' % (moment + wait), 'ok').build('A').says('reset A 0', 'refused 1')
    return made.says('send A 0 o 0 - 61', 'refused 7')


def timer():
    repeats(reset_begins('a request that isn\'t answered is repeated ten times, and then the association is over').build('A', 36), 0, 1000, 1)
    made = reset_begins('a peer whose response is in progress for ever isn\'t given up: each starts the timer again, as it was at first').build('A', 36)
    for number in range(1, 16):
        made.says('at %d' % (1500 * number - 1000), 'ok').foreign('A', responses((number, 6))).says('at %d' % (1500 * number - 1), 'ok').build('A')
        made.says('at %d' % (1500 * number), 'ok').build('A', 36, request(number + 1, 0, 1, 0))
    made.foreign('A', responses((16, 1))).send(byte='62', ticket=2)
    made = reset_begins('in progress once, and then silence: ten repeats, and the association is over').build('A', 36).says('at 600', 'ok')
    repeats(made.foreign('A', responses((1, 6))), 600, 1000, 2)
    made = reset_begins('expiries before "in progress" don\'t count').build('A', 36).says('at 1000', 'ok').build('A', 36).says('at 3000', 'ok').build('A', 36)
    repeats(made.says('at 3500', 'ok').foreign('A', responses((1, 6))), 3500, 1000, 2)
    made = reset_begins('the timer of a request that was answered begins with the next request anew').build('A', 36).says('at 1000', 'ok').build('A', 36)
    made.says('at 3000', 'ok').build('A', 36).foreign('A', responses((1, 1))).says('reset A 0', 'ok').build('A', 36, request(2, 0, 1, 0, 0))
    made.says('at 3999', 'ok').build('A').says('at 4000', 'ok').build('A', 36, request(2, 0, 1, 0, 0))
    rto()


def rto():
    """A round trip of 50 ms: SRTT 50, RTTVAR 25, RTO 150 (RFC 9260, 6.3.1)."""
    words = 'options both fast-retransmit rto-min 100 reset'
    made = Row('the wait of a request is the RTO that was measured, doubled by each expiry, and "in progress" sets it back', options=(words,))
    made.send(ticket=1).goes('A', 32).says('at 50', 'ok').goes('B', 28).says('reset A 0', 'ok').build('A', 36, request(1, 0, 1, 0)).says('at 199', 'ok').build('A')
    made.says('at 200', 'ok').build('A', 36).says('at 499', 'ok').build('A').says('at 500', 'ok').build('A', 36, request(1, 0, 1, 0))
    made.says('at 600', 'ok').foreign('A', responses((1, 6))).says('at 749', 'ok').build('A').says('at 750', 'ok').build('A', 36, request(2, 0, 1, 0))
    made.says('at 1049', 'ok').build('A').says('at 1050', 'ok').build('A', 36, request(2, 0, 1, 0)).foreign('A', responses((2, 1))).send(ticket=2)
    made = Row('without a round trip that was measured the wait of a request is a second', options=(words,)).says('reset A 0', 'ok')
    made.build('A', 36, request(1, 0, 0, 0)).says('at 999', 'ok').build('A').says('at 1000', 'ok').build('A', 36, request(1, 0, 0, 0))


MAKERS = (in_progress, forwards, said_again, timer)
