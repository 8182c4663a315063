"""Cases of crates/sctp_rows with `sctp-end`: the congestion window (RFC 9260, 6.1, 7.2 and 6.3.3). `burst_cases.py` has those of what goes at once."""

from case_of_end import Case

SIZE, FRAGMENT = 576, 544          # of a packet, and of a fragment that fills one: its chunk has 560 bytes, and a packet's window counts 564
CONTROL = 'congestion-control'


def made_of(name, options=CONTROL, **others):
    return Case(name, options, **{'mode': 'data', 'limit': SIZE, 'fragment': FRAGMENT, **others})


def full(name, count=10, **others):
    """The first window is full: five packets are out."""
    return made_of(name, **others).send(count * FRAGMENT).build(5)


def wide(name):
    """Two fragments to a packet; after six round trips the window is 5,568 bytes, and 22 fragments are out behind TSN 1011.
    What comes then is an alternative, so that the packets before aren't shown."""
    made = made_of(name, fragment=260).send(60 * 260).build(5)
    for turn in range(6):
        made.sack(1001 + 2 * turn).build(2)
    return made.alternative()


# ---- Windows, and what they let out ----

def first_windows():
    for limit in (576, 1480, 1500):
        made = Case('the first window: packets of %d bytes' % limit, CONTROL, mode='data', limit=limit, fragment=min(1400, limit - 32)).look()
        yield made.send(7000).build(5 if limit == 576 else 4).line('path').build()
    made = made_of('a packet goes while less than the window is in flight, and the last goes past it').send(4 * FRAGMENT).build(4)
    made.alternative().send(79).build().line('path').send(79).build().line('path').send(1).build()
    yield made.alternative().send(80).build().line('path').send(1).build().line('path')
    made = made_of('a window is full: what waits is past its lifetime meanwhile', mode='data-pr').send(5 * FRAGMENT).build(5)
    yield made.send(4, '500').build().line('status').at(500).build().line('status').look()
    yield full('abandoned fragments leave the window', mode='data-pr').send(8).build().line('abandon 1').line('path').build().build()
    for mode, count in (('data-pr', 28), ('idata-pr', 23)):
        made = made_of('small fragments in small packets: the window counts whole chunks, %s' % mode, fragment=4, mode=mode).send(4000)
        made.build(4).line('path').build().line('path').build().at(1100).line('path').build().build().sack(999 + count).build(2).line('path').build()
        yield made.sack(999 + 2 * count).line('path').build(2).build()
    made = full('after a SACK four packets\' bytes go at once, and the packet that goes past them, though the window is larger').sack(1004).line('path').build(5).line('path').build()
    yield made.sack(1005).line('path').build().build()
    yield made_of('both options may be given', options='fast-retransmit ' + CONTROL).look()


# ---- Slow start and congestion avoidance (7.2.1, 7.2.2) ----

def growth():
    made = made_of('slow start: a window that was full grows by what was acknowledged, a packet at most').send(10 * FRAGMENT).build(4)
    made.alternative().build().sack(1000).line('path')
    made.alternative().build().sack(1001).line('path')
    made.alternative().build().sack(1004).line('path')
    made.alternative().build().sack(999, (2, 3)).line('path')
    made.alternative().build().sack(999).line('path')
    yield made.alternative().sack(1000).line('path').sack(1003).line('path')
    made = made_of('a window as large as the threshold is in slow start, a larger one in congestion avoidance', rwnd=2256).look().send(20 * FRAGMENT)
    made.build(4).build().sack(999).build().line('path').sack(1000).line('path')
    yield made.build(2).line('path').sack(1001).line('path').build(2).sack(1002).line('path')
    made = made_of('congestion avoidance: a packet more when a whole window was acknowledged', rwnd=2000).look().send(20 * FRAGMENT)
    made.build(3).build().sack(999).build(2).line('path')
    for tsn in range(1000, 1005):
        made.sack(tsn).line('path').build()
    made.build().line('path')
    for tsn in range(1005, 1010):
        made.sack(tsn).line('path').build()
    yield made.line('path')
    made = made_of('congestion avoidance: a window grows if it was full as the last packet went, and more waits', rwnd=2000)
    made.send(20 * FRAGMENT).build(3).sack(999).build(2)
    for tsn in (1000, 1001, 1002):
        made.sack(tsn).build()
    made.alternative().sack(1003).line('path').sack(1004).line('path').build(3).line('path').sack(1005).line('path')
    yield made.alternative().sack(1007).line('path').build(5).line('path').sack(1008).line('path')
    made = made_of('congestion avoidance: of two windows acknowledged, neither of them full, one counts', rwnd=2000).send(30 * FRAGMENT).build(3)
    made.sack(999)
    for tsn in range(1000, 1009):
        made.sack(tsn).line('build')
    yield made.line('path').build(2).line('path').sack(1009).line('path').build(2).line('path').sack(1010).line('path')
    made = made_of('congestion avoidance: what was acknowledged counts no more once nothing is in flight', rwnd=2000).send(20 * FRAGMENT).build(3)
    yield made.sack(999).build().sack(1003).line('path').build(5).line('path').sack(1004).line('path')
    made = made_of('congestion avoidance: nor once something was lost', rwnd=2000).send(30 * FRAGMENT).build(3).sack(999).build(2)
    for tsn in range(1000, 1004):
        made.sack(tsn).build()
    made.sack(1003, (2, 2)).sack(1003, (2, 3)).sack(1003, (2, 4)).line('path').build(5).line('path').sack(1008).line('path').build(5).line('path')
    yield made.sack(1009).line('path').build(2).sack(1010).line('path').build(2).sack(1011).line('path').build(2).sack(1012).line('path')
    made = full('what a block acknowledged counts once').sack(999, (2, 2)).build().line('path').sack(1001).line('path')
    yield made.build(2).line('path').sack(1002, (2, 4)).sack(1005).line('path')
    made = full('abandoned fragments don\'t count as acknowledged', mode='data-pr').send(FRAGMENT).line('abandon 1').line('path').build()
    yield made.line('path').sack(1004).line('path')


# ---- Losses (7.2.3, 7.2.4, 6.3.3) ----

def losses():
    made = wide('a loss halves the window; its packet goes though the window is full, without new data').line('path')
    made.sack(1011, (2, 2)).sack(1011, (2, 3)).line('path').build(2).build().sack(1011, (2, 4)).line('path')
    made.build().build().line('path').sack(1011, (2, 5)).line('path').build()
    made.sack(1011, (2, 14)).line('path').build().line('path')
    yield made
    made = wide('a further loss in Fast Recovery cuts nothing, and goes at once').sack(1011, (2, 2)).sack(1011, (2, 3))
    made.sack(1011, (2, 4)).build().line('path').sack(1011, (2, 4), (6, 6)).sack(1011, (2, 4), (6, 7)).build().sack(1011, (2, 4), (6, 8)).line('path')
    made.build().line('path').sack(1015, (2, 4)).line('path').build().line('path').sack(1019).line('path')
    yield made.sack(1033).line('path')
    made = wide('Fast Recovery lasts until its last TSN is acknowledged: a full window doesn\'t grow before')
    made.sack(1011, (2, 2)).sack(1011, (2, 3)).sack(1011, (2, 4)).build().line('path')
    made.sack(1023).line('path').build(4).line('path').sack(1031).line('path').build(4).sack(1033).line('path')
    made.alternative().sack(1011, (2, 2)).sack(1011, (2, 3)).sack(1011, (2, 4)).build()
    yield made.sack(1033).line('path').build(6).line('path').sack(1034).line('path')
    made = full('a window is never cut below four packets').sack(999, (2, 2)).sack(999, (2, 3)).line('path').sack(999, (2, 4)).line('path')
    yield made.build(2).line('path').build(9).line('path')
    yield full('an expiry: one packet, and no other one until an acknowledgement').at(1100).look().build().build().look().sack(1001).build(2)
    made = full('the same: what ends the wait, and a second expiry').at(1100).build()
    made.alternative().sack(999).build().sack(1000).look().build(2).build().look()
    made.alternative().sack(999, (2, 2)).line('path').build(3).line('path').build()
    yield made.alternative().at(3100).look().build().build().look()
    made = wide('an expiry halves the threshold').at(1100).look().build().build().look().sack(1013).look().build().build().build().look()
    yield made.sack(1015).look()
    made = full('what an expiry marked already is no new loss').at(1100).build()
    made.alternative().sack(1000).sack(1000, (2, 2)).sack(1000, (2, 3)).sack(1000, (2, 4)).line('path').build().build().line('path')
    yield made.alternative().sack(1000).build().sack(1000, (2, 2)).sack(1000, (2, 3)).sack(1000, (2, 4)).line('path').build().line('path')
    made = made_of('Fast Recovery ends with the last TSN that was sent, not with one that waits', rwnd=4 * FRAGMENT).send(5 * FRAGMENT).build(4)
    made.send(5 * FRAGMENT).sack(999, (2, 2), rwnd=544).sack(999, (2, 3), rwnd=544).sack(999, (2, 4)).line('path').build(5).line('path').build()
    yield made.sack(1003).line('path')
    made = made_of('without a window the lost fragment and a new one go in one packet', options='fast-retransmit', fragment=260).send(6 * 260)
    yield made.build(3).send(260).loses_first().build().line('path')


def window_cases():
    for cases in (first_windows, growth, losses):
        yield from cases()
