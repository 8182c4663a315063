"""Partial reliability (RFC 3758): messages with a lifetime, and messages that aren't retransmitted, of either side."""

from association import Path, clock, need, opened
from faults import I_FORWARD, UNFINISHED
from packets import FORWARD_TSN, I_FORWARD_TSN, SACK, has
from trial import LIFETIME, RETRANSMISSIONS, exchange, trial

OF_ONE_PACKET, LONGER = (100, 1200), (100, 1200, 3000, 9000)
SHORT_RTO = ['rto 300 1000 300']


def partial(kernel, lost, weak=None, policy=(0, 0), caller='endpoint', sizes=OF_ONE_PACKET):
    association = opened(kernel, 'data-pr', caller, 10, Path(lost), congestion_control=True)
    talk, took = exchange(association, 200, 10, 240, sizes, mixed=True, weak=weak, policy=policy)
    association.run(2)
    arrived = [talk.missing(*it)[0] for it in ((talk.of_endpoint, talk.at_linux()), (talk.of_linux, talk.at_endpoint()))]
    closed = association.close(seconds=180)
    return '%.1f s, of 200 arrived %d at Linux, %d at the endpoint; closed %.2f s' % (took, *arrived, closed)


for lost in (5, 15):
    trial('%d %% lost, a lifetime of 200 ms, of either' % lost, lost=lost / 100, weak=dict(lifetime=200), policy=(LIFETIME, 200))(partial)
    trial('%d %% lost, no retransmission, of either' % lost, lost=lost / 100, weak=dict(retransmissions=0), policy=(RETRANSMISSIONS, 0))(partial)
trial('10 % lost, no retransmission, of the endpoint\'s, several packets long', lost=0.1, weak=dict(retransmissions=0), sizes=LONGER)(partial)
trial('10 % lost, no retransmission, of Linux\'', lost=0.1, policy=(RETRANSMISSIONS, 0))(partial)
trial('10 % lost, a lifetime of 100 ms, of Linux\', which calls', lost=0.1, policy=(LIFETIME, 100), caller='Linux')(partial)
for value, words in (((RETRANSMISSIONS, 0), 'no retransmission'), ((LIFETIME, 100), 'a lifetime of 100 ms')):
    trial('10 %% lost, %s, of Linux\', several packets long' % words, excused=(UNFINISHED,), lost=0.1, policy=value, sizes=LONGER)(partial)


@trial('Linux gives up a message, some fragments of which arrived and others have no TSN', UNFINISHED)
def unfinished(kernel):
    """The endpoint has all that was sent of it, so the FORWARD-TSN to there is out of date (RFC 3758, 3.6) and skips nothing."""
    association, forwards = opened(kernel, 'data-pr', streams=2, first=SHORT_RTO), []

    def watch(way, packet):
        if not way and has(packet, FORWARD_TSN):
            forwards.append(packet)
        return None if way and has(packet, SACK) and not forwards else packet
    association.watch = watch
    kernel.tell('say 0 20000 1 0 %d 100' % LIFETIME, 'say 0 100 1 0 0 0', 'say 1 200 1 0 0 0')
    association.run(20, lambda: len(association.taken) == 2 or association.taken and association.faults.found and forwards)
    association.run(5, lambda: len(association.taken) == 2)
    taken = [(message.stream, len(message.bytes)) for message in association.taken]
    need(association.faults.found[UNFINISHED], 'the fault wasn\'t seen:', taken, association.seen)
    need(taken == [(1, 200)], 'taken:', taken, association.seen)
    return 'the message after it isn\'t delivered, that of another stream is'


@trial('a FORWARD-TSN of Linux\' is lost, and nothing else is outstanding')
def lost_forward(kernel):
    association, lost = opened(kernel, 'data-pr', streams=1, first=SHORT_RTO), []

    def watch(way, packet):
        if not way and (not lost or len(lost) == 1 and has(packet, FORWARD_TSN)):
            lost.append(clock())
            return None
        return packet
    association.watch = watch
    kernel.tell('say 0 100 1 0 %d 0' % RETRANSMISSIONS, 'say 0 200 1 0 0 0')
    need(association.run(20, lambda: len(lost) == 2), 'no FORWARD-TSN:', association.seen)
    need(association.run(20, lambda: [len(message.bytes) for message in association.taken] == [200]), 'not repeated:', association.seen)
    took = clock() - lost[-1]
    association.close()
    return 'repeated after %.1f s' % took


@trial('I-DATA, Linux gives up a message', I_FORWARD)
def interleaved(kernel):
    association, seen = opened(kernel, 'idata-pr', streams=1, first=SHORT_RTO), []
    need(not association.status().partial, 'partial reliability is in force')

    def watch(way, packet):
        if not way and has(packet, I_FORWARD_TSN):
            seen.append(packet)
        return packet if way or seen else None
    association.watch = watch
    kernel.tell('say 0 100 1 0 %d 0' % RETRANSMISSIONS, 'say 0 200 1 0 0 0')
    need(association.run(20, lambda: bool(seen)), 'the fault wasn\'t seen:', association.seen)
    association.run(5, lambda: association.status().ended is not None)
    return 'the association ended: %s' % association.last
