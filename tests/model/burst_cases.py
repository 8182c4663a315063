"""Cases of crates/sctp_rows with `sctp-end`: acknowledgements that arrive together, what goes whatever the window is, probes (RFC 9260, 6.1, 7.2.1 and 7.2.4)."""

from window_cases import CONTROL, FRAGMENT, full, made_of, wide


def together():
    """Five packets are out; their SACKs arrive one by one with what they let go between, all before the next packet, or in one packet."""
    made = full('SACKs that arrive together let go what they would one by one, and the window grows as far', count=40)
    made.alternative()
    for tsn in range(1000, 1005):
        made.sack(tsn).build(2)
    made.line('path').build()
    made.alternative()
    for tsn in range(1000, 1005):
        made.sack(tsn).line('path')
    made.build(9).line('path').build()
    yield made.alternative().sacks(*[(tsn,) for tsn in range(1000, 1005)]).line('path').build(9).line('path').build()
    made = full('with nothing that waits they let go four packets, and the window grows by the first of them alone', count=5)
    for tsn in range(1000, 1005):
        made.sack(tsn).line('path')
    yield made.send(20 * FRAGMENT).build(4).line('path').build().sack(1005).build(3).line('path')
    made = full('what a packet took isn\'t let go again', count=40).sack(1000).sack(1001).build().line('path').sack(1002).build(4).line('path').build()
    yield made.sack(1002).build().line('path')
    made = full('after an expiry they let go no more than the window', count=40).at(1100).build().sack(1000).sack(1001).sack(1002).line('path').build(5)
    yield made.line('path').build()


def in_use():
    made = full('the window is in use if the last packet filled it', count=40)
    made.alternative().sack(1001).line('path').sack(1002).line('path').sack(1003).line('path')
    made.alternative().sack(1001).build().line('path').sack(1002).line('path')
    yield made.alternative().at(1100).sack(1001).line('path').sack(1004).line('path')
    made = made_of('and not if less than the window was ever in flight').send(3 * FRAGMENT).build(3).send(4).sack(1001).line('path').build().sack(1002).line('path')
    yield made


def at_once():
    """22 fragments are out, of which the first are lost; the window is full."""
    made = wide('in Fast Recovery each further loss lets a packet of retransmissions go, whatever the window is')
    made.sack(1011, (2, 2)).sack(1011, (2, 3)).sack(1011, (2, 4)).build().build().line('path')
    made.sack(1011, (2, 4), (6, 6)).sack(1011, (2, 4), (6, 7)).build().sack(1011, (2, 4), (6, 8)).line('path').build().build().line('path')
    yield made.sack(1011, (2, 4), (6, 9)).build().line('counts')
    made = wide('and so does each SACK in it that moves the cumulative TSN: of what goes again, and never anything new')
    for at, told in enumerate(((1011, (4, 7)), (1012, (3, 6)), (1014, (1, 4)))):
        if at:
            made.alternative()
        made.sack(1011, (4, 4)).sack(1011, (4, 5)).sack(1011, (4, 6)).build().build().line('path')
        made.sack(*told).line('path').build().build().line('path')
    yield made.sack(1033).build(4).line('path')


def gap_blocks():
    made = full('gap blocks let the window grow, though the cumulative TSN stays; in Fast Recovery they don\'t', count=40)
    for last in (2, 3):
        made.sack(999, (2, last)).line('path').build(2).line('path')
    yield made.sack(999, (2, 4)).line('path').build(2).line('path').sack(999, (2, 7)).line('path').build().sack(1006).line('path')


def probes():
    """Nothing is in flight, so that one fragment goes into a window that has no room for it, again and again."""
    for rwnd in (0, FRAGMENT - 1, FRAGMENT):
        made = made_of('a window of %d bytes at the peer: what probes it isn\'t lost' % rwnd if rwnd < FRAGMENT else
                       'a window of %d bytes at the peer: what is in flight is no probe' % rwnd, rwnd=rwnd)
        made.send(3 * FRAGMENT).build().build().look().at(1100).look().build().build().look().at(3100).build()
        yield made.sack(999, rwnd=rwnd).look().sack(1000).look().build(2).look()
    made = made_of('two fragments in flight, which the peer has no room for any more, are no probe').send(4 * FRAGMENT).build(2)
    made.sack(999, rwnd=0).look().at(1100).look().build().build().look()
    yield made
    made = made_of('a probe without congestion control is sent again as ever', options='fast-retransmit', rwnd=0).send(2 * FRAGMENT).build().at(1100)
    yield made.build().build().look()


def taken_back():
    made = full('what is taken back is in flight again, and counts in the window', count=40, options=CONTROL)
    made.sack(999, (2, 4)).line('path').build(2).line('path')
    made.alternative().sack(999, (2, 3)).look().build()
    yield made.alternative().sack(999).look().sack(999, (2, 2)).sack(999, (2, 3)).sack(999, (2, 4)).look().build(2).line('path')


def burst_cases():
    for cases in (together, in_use, at_once, gap_blocks, probes, taken_back):
        yield from cases()
