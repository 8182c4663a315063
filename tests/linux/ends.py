"""How an association begins and ends otherwise: aborts, heartbeats, restarts, both calling, a path that is cut."""

import os

from association import TO_LINUX, Association, Job, Path, clock, config_of, need, now, opened, ports, prepare
from kernel import HOST
from packets import ABORT, COOKIE_ECHO, DATA, HEARTBEAT, HEARTBEAT_ACK, INIT, chunks, has, printed
from sctp_endpoint import Endpoint, Ended, State
from trial import exchange, open_and_greet, trial


@trial('aborted by the endpoint')
def abort_of_endpoint(kernel):
    association = open_and_greet(kernel)
    association.carry(TO_LINUX, association.endpoint.abort(b'enough'))
    need(association.run(10, lambda: kernel.reports('association lost')), 'not reported:', association.seen)
    return ', '.join(kernel.events())


@trial('aborted by Linux')
def abort_of_linux(kernel):
    association = open_and_greet(kernel)
    kernel.tell('abort')
    need(association.run(10, lambda: association.status().ended == Ended.ABORTED), 'not ended:', association.seen)
    return 'the endpoint ended: %s' % association.last


@trial('heartbeats of Linux, 300 ms and an RTO apart, for 10 s')
def heartbeats(kernel):
    association, seen = open_and_greet(kernel, first=['rto 500 1000 200']), {HEARTBEAT: 0, HEARTBEAT_ACK: 0}

    def watch(way, packet):
        for kind, _, _ in chunks(packet):
            if kind == (HEARTBEAT_ACK if way else HEARTBEAT):
                seen[kind] += 1
        return packet
    association.watch = watch
    kernel.tell('beats 300')
    association.run(10)
    need(seen[HEARTBEAT] > 2 and seen[HEARTBEAT] == seen[HEARTBEAT_ACK], 'sent and answered:', seen)
    association.close('Linux')
    return '%d sent, each answered' % seen[HEARTBEAT]


@trial('Linux\' socket begins anew, which the endpoint doesn\'t notice')
def restart_of_linux(kernel):
    """The endpoint's program passes its INIT to a new listener, as docs/C.md has it."""
    association = open_and_greet(kernel)
    association.watch = lambda way, packet: None if not way and has(packet, ABORT) else packet
    kernel.tell('abort')
    association.run(0.5)
    association.watch = None
    kernel.lines.clear()
    kernel.tell('make %d 100 100' % association.kernel_port, 'connect %s %d' % (HOST, association.config.own_port))
    alone = association.run(6, lambda: association.kernel.reports('up '))
    need(not alone, 'the old endpoint took it on')
    dropped = dict(association.dropped)
    association.endpoint = Endpoint.listener(association.config, os.urandom(32))
    association.taken.clear()
    need(association.run(60, association.is_up), 'not opened:', association.seen)
    kernel.lines.clear()
    exchange(association)
    association.close()
    return 'dropped by the old endpoint %s; a new listener in its place: opened, 20 messages each way' % dropped


@trial('the endpoint begins anew, which Linux\' socket doesn\'t notice')
def restart_of_endpoint(kernel):
    association = open_and_greet(kernel)
    association.endpoint = Endpoint.caller(association.config)
    association.endpoint.connect(now())
    association.taken.clear()
    opens = association.run(60, lambda: association.status().state == State.ESTABLISHED and kernel.reports('association restart'))
    need(opens, 'not opened:', association.seen)
    kernel.lines.clear()
    exchange(association)
    association.close()
    return 'Linux reports a restart; 20 messages each way'


@trial('both call at once')
def both_call(kernel):
    own = next(ports)
    config = config_of(own, own + 1, 'data', 10)
    prepare(kernel, 'data')
    kernel.tell('make %d 10 10' % (own + 1))
    association = Association(kernel, Endpoint.caller(config), config, Path(delay=0.1), own + 1)
    association.run(10, association.told)
    called = []

    def watch(way, packet):
        called.extend([packet] if not way and has(packet, INIT) else [])
        return packet
    association.watch = watch
    kernel.tell('connect %s %d' % (HOST, own))
    need(association.run(20, lambda: bool(called)), 'Linux doesn\'t call:', association.seen)
    association.endpoint.connect(now())                 # before that INIT arrives
    need(association.run(90, association.is_up), 'not opened:', association.seen)
    exchange(association)
    association.close()
    return 'opened; dropped %s' % dict(association.dropped)


@trial('Linux sends DATA with its COOKIE ECHO')
def early(kernel):
    own, together = next(ports), []
    config = config_of(own, own + 1, 'data', 10)
    prepare(kernel, 'data')
    association = Association(kernel, Endpoint.listener(config, os.urandom(32)), config, Path(), own + 1)

    def watch(way, packet):
        together.append(has(packet, COOKIE_ECHO) and has(packet, DATA))
        return packet
    association.watch = watch
    kernel.tell('many %d 10 10' % (own + 1), 'to %s %d' % (HOST, own), 'say 0 100 3 0 0 0')
    need(association.run(30, lambda: len(association.taken) == 3), 'not there:', association.seen)
    need(any(together), 'they weren\'t in one packet')
    association.jobs.append(Job(0, 0, 100))
    need(association.run(20, lambda: len(kernel.messages()) == 1), 'not at Linux:', association.seen)
    association.endpoint.shutdown()
    need(association.run(60, lambda: association.status().ended == Ended.COMPLETED), 'not closed:', association.seen)
    return 'taken'


@trial('DATA that belongs to no association')
def out_of_the_blue(kernel):
    """RFC 9260, 8.4: a listener and an endpoint that has ended answer it by ABORT with T and its tag."""
    association, data = opened(kernel, 'data', streams=2), []

    def watch(way, packet):
        data.extend([packet] if not way and has(packet, DATA) else [])
        return packet
    association.watch = watch
    kernel.tell('say 0 100 1 0 0 0')
    need(association.run(20, lambda: len(association.taken) == 1), 'not there:', association.seen)
    association.close()
    said = []
    for endpoint in (Endpoint.listener(association.config, os.urandom(32)), association.endpoint):
        answer = endpoint.handle_packet(now(), data[0]).answer
        need(answer and chunks(answer)[0][:2] == (ABORT, 1) and answer[4:8] == data[0][4:8], 'answer:', answer and printed(answer))
        said.append(printed(answer))
    return ' and '.join(said)


@trial('the path is cut for 10 s, with data outstanding each way')
def cut(kernel):
    association = open_and_greet(kernel, 'data', congestion_control=True)
    for number in range(20, 40):
        association.jobs.append(Job(number % 10, number, 1000))
        kernel.tell('say %d 1000 1 0 0 0' % (number % 10))
    association.watch = lambda way, packet: None
    association.run(10)
    association.watch, began = None, clock()
    need(association.run(150, lambda: len(kernel.messages()) == 40 and len(association.taken) == 40), 'not there:', association.seen)
    took = clock() - began
    association.close()
    return 'all there %.1f s after it was back' % took
