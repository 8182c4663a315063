"""Opening, messages, closing: everything arrives, once and in order, over each path."""

from association import Job, Path, clock, need, opened
from faults import FRAGMENT_NUMBERS
from packets import FIRST, SACK, body, has, pieces
from trial import OF_ONE_FRAGMENT, SIZES, exchange, retransmitted, trial

UDP_PORTS = 9900, 9899
FIRST_WINDOW = 4404                                    # bytes (RFC 9260, 7.2.1)
OPTIONS = (('no option', {}), ('fast retransmission, RTO.Min 300', dict(fast_retransmit=True, rto_min=300)),
           ('congestion control', dict(congestion_control=True)), ('congestion control, delayed SACKs', dict(congestion_control=True, delay=True)))


def whole(kernel, mode, caller, by, streams=100, messages=60, seconds=120, udp=None, path=None, **options):
    association = opened(kernel, mode, caller, streams, path and Path(**path), udp, **options)
    status = association.status()
    need((status.interleaved, status.partial) == (mode.startswith('idata'), mode == 'data-pr'), 'agreed on:', status)
    need((status.outbound, status.inbound) == (streams, streams), 'streams:', status)
    _, took = exchange(association, messages, streams, seconds, OF_ONE_FRAGMENT if mode.startswith('idata') else SIZES, mixed=True)
    closed = association.close(by)
    return '%d messages each way %.2f s, closed %.2f s, %s' % (messages, took, closed, retransmitted(association))


for mode in ('data', 'data-pr'):
    for caller in ('endpoint', 'Linux'):
        for by in ('endpoint', 'Linux', 'both'):
            trial('%s, %s calls, closed by %s' % (mode, caller, by), mode=mode, caller=caller, by=by)(whole)
for caller in ('endpoint', 'Linux'):
    trial('over UDP, %s calls' % caller, mode='data-pr', caller=caller, by='endpoint', udp=UDP_PORTS)(whole)
    trial('one stream, %s calls' % caller, mode='data', caller=caller, by='endpoint', streams=1)(whole)
    trial('1,024 streams, %s calls' % caller, mode='data-pr', caller=caller, by='Linux', streams=1024)(whole)
    trial('I-DATA of one fragment, %s calls' % caller, mode='idata', caller=caller, by='both')(whole)
for lost in (5, 10):
    for name, options in OPTIONS:
        for caller in ('endpoint', 'Linux'):
            trial('%d %% lost, %s, %s calls' % (lost, name, caller), mode='data', caller=caller, by='endpoint' if lost == 5 else 'Linux',
                  messages=120, seconds=240, path=dict(lost=lost / 100, seed=lost), **options)(whole)
for caller in ('endpoint', 'Linux'):
    trial('10 %% lost, 20 %% repeated, 30 %% late, %s calls' % caller, mode='data-pr', caller=caller, by='both', messages=120, seconds=240,
          path=dict(lost=0.1, repeated=0.2, late=0.3), congestion_control=True)(whole)


@trial('a message of 1,000,000 bytes from Linux')
def long_message(kernel):
    association = opened(kernel, 'data', first=['sndbuf 4000000'])
    kernel.tell('say 0 1000000 1 0 0 0')
    need(association.run(60, lambda: len(association.taken) == 1), 'not there:', association.seen)
    need(association.taken[0].bytes == body(0, 1000000), 'contents')
    association.close()
    return 'whole'


def bulk(kernel, sender, messages=300, length=16384, lost=0.0):
    association = opened(kernel, 'data', streams=4, path=Path(lost, delay=0.02), first=['sndbuf 2000000', 'rcvbuf 4000000'], congestion_control=True)
    began = clock()
    if sender == 'Linux':
        kernel.tell('say 0 %d %d 0 0 0' % (length, messages))
        need(association.run(240, lambda: len(association.taken) == messages), len(association.taken), 'of', messages, association.seen)
        need([message.bytes for message in association.taken] == [body(number, length) for number in range(messages)], 'contents')
    else:
        association.jobs.extend(Job(0, number, length) for number in range(messages))
        need(association.run(240, lambda: len(kernel.messages()) == messages), len(kernel.messages()), 'of', messages, association.seen)
        need(all(words[-1] == 'good' for words in kernel.messages()), 'contents')
    took = clock() - began
    association.close()
    return '%.1f Mbit/s, %s' % (length * messages * 8e-6 / took, retransmitted(association))


for sender in ('Linux', 'the endpoint'):
    for lost in (0, 1):
        trial('4.9 MB from %s, 20 ms each way, %d %% lost' % (sender, lost), sender=sender, lost=lost / 100)(bulk)


@trial('Linux\' first window and its fast retransmission')
def window(kernel, delay=0.05):
    """What it sends before the first SACK reaches it, and how soon it sends a lost packet again (its RTO is a second at least)."""
    association, sizes, acknowledged, times = opened(kernel, 'data', streams=1, path=Path(delay=delay)), [], [], {}

    def watch(way, packet):
        if way and has(packet, SACK):
            acknowledged.append(clock() + delay)
        for piece in [] if way else pieces(packet):
            if not acknowledged or clock() < acknowledged[0]:
                sizes.append(piece.length)
            elif not times:
                times[piece.tsn] = [clock()]
                return None
            elif piece.tsn in times:
                times[piece.tsn].append(clock())
        return packet
    association.watch = watch
    kernel.tell('say 0 1400 30 0 0 0')
    need(association.run(30, lambda: len(association.taken) == 30), 'not there:', association.seen)
    association.close()
    took = [again[1] - again[0] for again in times.values()][0]
    need(sum(sizes) <= FIRST_WINDOW + 1400, 'bytes in the first window:', sum(sizes))
    need(took < 1, 'sent again after %.2f s' % took)
    return '%d bytes in the first window; a lost packet is sent again after %.2f s' % (sum(sizes), took)


@trial('I-DATA of several fragments', FRAGMENT_NUMBERS)
def fragments(kernel):
    association, numbers = opened(kernel, 'idata', streams=4), []

    def watch(way, packet):
        if not way:
            numbers.extend(piece.fragment for piece in pieces(packet) if not piece.flags & FIRST)
        return packet
    association.watch = watch
    kernel.tell('say 0 5000 1 0 0 0')
    association.jobs.append(Job(0, 0, 5000))
    association.run(20, lambda: len(numbers) >= 3)
    association.run(3)
    need(numbers[:2] == [0, 1], 'the fault wasn\'t seen: numbers of the fragments after the first', numbers, association.seen)
    return 'after the first %s; of 5,000 bytes the endpoint took %s; of a message of the endpoint\'s, acknowledged, Linux\' program has %d' % (
        numbers, [len(message.bytes) for message in association.taken], len(kernel.messages()))
