#!/usr/bin/env python3
"""Cases of crates/sctp_rows with `sctp-end`: round trips, misses, the congestion window, and limits of retransmissions with them.

`pace_cases.py` prints them; `rows.py` has what the model answers to them.
"""

from burst_cases import burst_cases
from case_of_end import Case
from window_cases import window_cases

FAST, CONTROL = 'fast-retransmit', 'congestion-control'


# ---- Round trips (RFC 9260, 6.3.1) ----

def round_trips():
    for options, named in ((FAST + ' rto-min 0', 'RTO.Min 0'), (FAST, 'RTO.Min 1,000'), (FAST + ' rto-min 5000', 'RTO.Min 5,000')):
        made = Case('round trips of 100, 100 and 200 ms, the first of the handshake; ' + named, options).look()
        made.send().build().look().at(200).sack(1000).look()
        yield made.send().build().at(400).sack(1001).look()
    made = Case('round trips of 10 ms: no variance is left, and four ticks are added', FAST + ' rto-min 0', trip=10)
    for turn in range(1, 10):
        made.send().line('build').at(10 + 10 * turn).sack(999 + turn)
    yield made.look()
    made = Case('a round trip over a minute counts as a minute, and no RTO is longer', FAST + ' rto-min 4294967295').look()
    made.send(8).build().at(50000).sack(1000).look()
    for moment in (59000, 60100, 60101, 70000):
        made.alternative().at(moment).sack(1001).look()
    yield made
    made = Case('one fragment at a time is timed, the last of its packet that was never sent before', FAST + ' rto-min 0')
    made.send(8).build().at(110).send().build()
    made.alternative().at(130).sack(1000).look().sack(1001).look().at(150).sack(1002).look()
    yield made.alternative().at(130).sack(1002).look()
    made = Case('what went out again measures nothing, and ends no doubled RTO but by the cumulative TSN', FAST + ' rto-min 0')
    made.send(12).build().at(400).build()
    made.alternative().look().at(410).sack(999, (2, 3)).look()
    yield made.alternative().at(410).sack(1000).look().at(450).sack(1002).look().send().build().at(490).sack(1003).look()
    made = Case('an abandoned message measures nothing, also if it is acknowledged', FAST + ' rto-min 0').send().build()
    made.alternative().at(140).sack(1000).look()
    yield made.alternative().line('abandon 1').look().build().at(140).sack(1000).look()


def handshakes():
    made = Case('a COOKIE ECHO that went twice measures nothing: its doubled RTO is the first one of the data timer', FAST + ' rto-min 0', opens=False)
    made.look().at(1000).build().at(1500).cookie_ack().look().send().build().look()
    yield made.at(1600).sack(1000).look()
    made = Case('nothing measured, and the cumulative TSN moves: the RTO is 1,000 ms, whatever RTO.Min', FAST + ' rto-min 5000', opens=False)
    made.at(1000).build().at(1500).cookie_ack().send(8).build().at(3500).build().look()
    yield made.at(3600).sack(1000).look().sack(1001).look().send().build().look().at(3650).sack(1002).look()
    yield Case('an RTO.Min without fast retransmission measures nothing', 'rto-min 0').look().send().build().look().at(1100).build().look()
    made = Case('RTO.Min 0 after a handshake of 0 ms: the data timer expires after 4 ms, then 8, 16, .. and at last gives up', FAST + ' rto-min 0', trip=0)
    made.look().send().build().look()
    moment, wait = 0, 4
    for _ in range(11):
        moment, wait = moment + wait, 2 * wait
        made.at(moment).line('build').line('next')
    yield made.line('state').look()
    made = Case('RTO.Min 4,294,967,295: a minute, which isn\'t doubled', FAST + ' rto-min 4294967295').look().send().build().look()
    yield made.at(60099).build().at(60100).build().look().at(120100).build().look().at(130000).sack(1000).look()
    made = Case('a SHUTDOWN that acknowledges is counted as a SACK is: by the rules of the profile', FAST + ' rto-min 0')
    yield shut_by(made)
    yield shut_by(Case('the same by the timers of the RFC', 'standard-closing ' + FAST + ' rto-min 0'))
    made = Case('the data timer and a delayed SACK at one time', 'delay ' + FAST + ' rto-min 200', trip=0)
    yield made.send().build().data().build().look().at(199).build().at(200).build().look()
    made = Case('a handshake and a round trip beside the last time that there is', FAST + ' rto-min 0', begins=2**64 - 1 - 500).look()
    yield made.send().build().look().at(2**64 - 1 - 300).sack(1000).look().send().build().look().at(2**64 - 1).build().look()


def shut_by(made):
    made.send(12).build().at(400).build().send().build().look()
    return made.at(500).shutdown(1001).look().line('state').at(550).shutdown(1003).look().line('state')


# ---- Misses (RFC 9260, 7.2.4) ----

def misses():
    made = Case('three miss indications: the fragment goes again, and its timer begins anew', FAST).send(20).build().look()
    made.at(500).sack(999, (2, 2)).build().sack(999, (2, 3)).build().look().sack(999, (2, 4)).look().build().build().look()
    yield made.sack(999, (2, 5)).build().sack(999, (2, 5)).build().look().at(600).sack(1004).look().build()
    made = Case('without the option nothing is missed', '').send(20).build().loses_first().look()
    yield made.build()
    made = Case('each SACK counts, three in one packet too; one that acknowledges nothing new doesn\'t', FAST).send(20).build()
    made.alternative().sacks((999, (2, 2)), (999, (2, 3)), (999, (2, 4))).build()
    yield made.alternative().sack(999, (2, 4)).sack(999, (2, 4)).sack(999, (2, 4)).build().sacks((999, (2, 4)), (999, (2, 4))).build().look()
    made = Case('a duplicate of the SACK that missed, in another packet and out of date, indicates nothing', FAST).send(24).build()
    made.sack(1000, (2, 2)).sack(1000, (2, 3)).sack(999).sack(1000, (2, 3)).build()
    yield made.sack(1000, (2, 4)).build().build()
    made = Case('what went again is missed by what was first sent after it, and not by what was sent before', FAST).send(40).build()
    made.loses_first().build().sack(999, (2, 6)).sack(999, (2, 7)).sack(999, (2, 8)).sack(999, (2, 10)).build().look()
    made.send(16).build().sack(999, (2, 11)).sack(999, (2, 12)).build().sack(999, (2, 13)).look().build().build()
    yield made.sack(999, (2, 14)).build().at(600).sack(1013).look()
    made = Case('after an expiry all goes again: acknowledgements of it miss none of it, three of what is sent later do', FAST).send(24).build()
    made.at(1100).build()
    made.alternative().sack(999, (3, 3)).sack(999, (3, 4)).sack(999, (3, 5)).build().sack(999, (3, 6)).build().look()
    made.alternative().send(12).build().sack(999, (3, 7)).sack(999, (3, 8)).build().sack(999, (3, 9)).look().build().build()
    yield made.alternative().line('counts').sack(1002).send(12).build().sack(1002, (2, 4)).sack(1002, (2, 5)).sack(1002, (2, 6)).build().line('counts')
    made = Case('fragments below the third largest of the highest TSNs newly acknowledged are missed; the timer begins anew with the first one', FAST).send(40).build()
    made.sack(999, (2, 3)).sack(999, (2, 3), (5, 6)).build().at(200).sack(999, (2, 3), (5, 7)).look().build().build()
    made.at(300).sack(999, (2, 3), (5, 8)).look().build()
    yield made.sack(999, (2, 3), (5, 9)).build().look()
    made = Case('before a loss it is the highest TSN newly acknowledged, also if the cumulative TSN moves', FAST).send(24).build()
    yield made.sack(999, (3, 4)).sack(1000, (2, 3)).sack(1000, (2, 4)).build().sack(1000, (2, 5)).build().look()
    made = Case('in Fast Recovery, if the cumulative TSN moves, the highest TSN acknowledged is what counts', FAST).send(40).build()
    made.loses_first(last=6).build()
    made.alternative().sack(1005).send().build().sacks((1005, (2, 2)), (1005, (2, 3))).build().sack(1005, (2, 4)).build()
    made.alternative().sack(999, (2, 6), (8, 8)).build().sack(1005, (2, 2)).build().sack(1005, (2, 2)).build().look()
    yield made.alternative().sack(1000, (1, 5), (7, 7)).build().sack(1001, (1, 4), (6, 6)).build().sack(1002, (1, 3), (5, 5)).build().look()
    made = Case('a lost fragment in the middle: the timer of the first one runs on', FAST).send(24).build().at(500)
    yield made.sack(999, (3, 3)).sack(999, (3, 4)).look().sack(1000, (2, 4)).look().build().look()


# ---- Peers that acknowledge what they have not got, or take it back ----

def wrong_peers():
    for options in (FAST, ''):
        made = Case('all is acknowledged by a block, and then taken back, %s' % ('with ' + options if options else 'without options'), options)
        made.send(20).build().sack(999, (1, 5)).look().at(101).sack(999).look().build()
        yield made.at(1101).look().build()
    made = Case('all is acknowledged and taken back by turns: nothing below the highest is missed', FAST).send(20).build()
    for _ in range(4):
        made.sack(999, (1, 5)).sack(999).line('build')
    yield made.look().at(1100).build().look()
    made = Case('all but the first by turns with nothing: the third time the first is missed', FAST).send(20).build()
    for _ in range(5):
        made.sack(999, (2, 5)).line('build').sack(999).line('build')
    yield made.look()
    made = Case('the same, with a cumulative TSN that moves between', CONTROL).send(20).build()
    for tsn in (999, 1000, 1001):
        made.sack(tsn, (2, 1004 - tsn)).line('build').sack(tsn).line('build').look()
    yield made.sack(1004).look()
    made = Case('one block at a time, from the last fragment down: what lies below the third is missed, the others are in flight again', FAST)
    made.send(24).build()
    for last in (6, 5, 4, 3):
        made.sack(999, (last, last)).line('build')
    yield made.look()
    made = Case('a SACK reports a highest TSN that has never arrived', FAST).send(24).build()
    made.sack(999, (6, 6)).sack(999, (2, 2)).sack(999, (2, 3)).build().sack(999, (2, 4)).build().look()
    yield made.sack(999, (2, 5)).build().at(1100).build().look()
    made = Case('a SACK of a TSN that was assigned and never sent is no miss indication', FAST, rwnd=16).send(24).build()
    made.sack(999, (5, 5), rwnd=16).sack(999, (5, 6), rwnd=16).sack(999, (6, 6), rwnd=16).build()
    made.alternative().sack(999, (2, 6), rwnd=16).look().build()
    yield made.alternative().sack(999, (2, 2), rwnd=4).sack(999, (2, 3), rwnd=4).sack(999, (2, 4), rwnd=4).build().look()
    made = Case('a SACK past the last TSN is a fault of the peer, also after misses', CONTROL).send(20).build().loses_first()
    made.alternative().sack(1005).line('state').look()
    made.alternative().sack(999, (2, 6)).line('state').look()
    made.alternative().sack(999, (3, 2)).line('state')
    made.alternative().sack(999, (0, 2)).line('state')
    yield made.alternative().sacks((999, (2, 5)), (1000, (5, 5))).line('state')


# ---- Limits of retransmissions with misses (RFC 7496, 3.1) ----

def limits():
    for until, named in (('x0', '0'), ('x1', '1'), ('x2', '2'), ('x65535', '65,535')):
        made = Case('limit %s, and three miss indications' % named, FAST).send(20, until).build().at(500)
        made.sack(999, (2, 2)).sack(999, (2, 3)).build().line('abandoned 1').sack(999, (2, 4)).line('abandoned 1').look().build().build()
        made.sack(999, (2, 5)).build().line('abandoned 1').at(1500).build().line('abandoned 1').look()
        yield made.at(3500).build().line('abandoned 1').look()
    made = Case('limit 0 and congestion control: Fast Recovery begins, and a FORWARD-TSN goes', CONTROL).send(4, 'x0').send(16).build().loses_first()
    yield made.look().build().look().at(1100).build()
    made = Case('the fragment that is timed is given up: nothing else is timed until it is acknowledged', FAST + ' rto-min 0').send(4, 'x0').build()
    made.send(16).build().at(150).loses_first().line('abandoned 1').build().send().build().look()
    yield made.at(190).sack(999, (2, 6)).look().sack(1005).look().send().build().at(230).sack(1006).look()
    made = Case('limit 0, and a fragment that has a TSN and was never sent isn\'t at it', FAST, rwnd=8).send(4).send(8, 'x0').build()
    made.sack(999, (2, 2), rwnd=4).look().build().at(1100).line('abandoned 2').build()
    yield made.sack(1000, (1, 1)).build().line('abandoned 2').at(3100).line('abandoned 2').build()
    made = Case('without partial reliability a limit of 0 is none', FAST, mode='data').send(20, 'x0').build().loses_first()
    yield made.line('abandoned 1').build()
    made = Case('at its limit, and acknowledged later in the same packet', FAST).send(4, 'x0').send(16).build()
    made.alternative().sacks((999, (2, 2)), (999, (2, 3)), (999, (2, 4)), (1000, (1, 3))).line('abandoned 1').build()
    yield made.alternative().sacks((999, (2, 2)), (999, (2, 3)), (999, (2, 4))).line('abandoned 1').sack(1000, (1, 3)).build()
    made = Case('taken back in the packet of the third miss indication, and in the next one: it counts as sent then', FAST).send().send(4, 'x0').send(12).build()
    made.alternative().sacks((999, (2, 3)), (999, (2, 4)), (999, (2, 5)), (999, (3, 5))).line('abandoned 2').build()
    yield made.alternative().sacks((999, (2, 3)), (999, (2, 4)), (999, (2, 5))).sack(999, (3, 5)).line('abandoned 2').build()
    made = Case('I-DATA: a message given up at its third miss indication, before it was sent whole', FAST, mode='idata-pr', rwnd=16)
    made.send(24, 'x0').build().sacks((999, (2, 2)), (999, (2, 3)), (999, (2, 4)), rwnd=16)
    yield made.line('abandoned 1').build().build().look().sack(1004).line('status')


def main():
    print('== Fast retransmission, congestion control, RTO.Min\n')
    for cases in (round_trips, handshakes, misses, wrong_peers, limits, window_cases, burst_cases):
        for made in cases():
            print(made.text())


if __name__ == '__main__':
    main()
