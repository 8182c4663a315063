"""An association between an endpoint of the library and the kernel's socket, in real time, over a path that loses, repeats and delays packets."""

import collections
import heapq
import os
import random
import select
import time

from faults import Faults
from kernel import HOST
from packets import body, printed
from sctp_endpoint import Config, Ended, Endpoint, Refused, Result, State

POLLS, PAYLOAD = 64, 7
TO_LINUX, FROM_LINUX = True, False
ports = iter(range(6000, 60000, 2))


def clock():
    return time.monotonic()


def now():
    return int(clock() * 1000)


class Wrong(Exception):
    """What isn't as it should be, in words."""


def need(fact, *words):
    if not fact:
        raise Wrong(' '.join(str(word() if callable(word) else word) for word in words))


class Path:
    """Both ways: shares of the packets that are lost, repeated, or up to 50 ms late, and a delay in seconds."""

    def __init__(self, lost=0.0, repeated=0.0, late=0.0, delay=0.005, seed=1):
        self.lost, self.repeated, self.late, self.delay, self.random = lost, repeated, late, delay, random.Random(seed)

    def arrivals(self):
        """The seconds after which a packet arrives, none, one or two of them."""
        if self.random.random() < self.lost:
            return []
        return [self.delay + self.lateness() for _ in range(1 + (self.random.random() < self.repeated))]

    def lateness(self):
        return self.random.random() * 0.05 if self.random.random() < self.late else 0


Job = collections.namedtuple('Job', 'stream number length ordered lifetime retransmissions', defaults=(True, None, None))


class Association:
    """The endpoint and its user, who takes what is there, and the path to the kernel."""

    def __init__(self, kernel, endpoint, config, path, kernel_port):
        self.kernel, self.endpoint, self.config, self.path, self.kernel_port = kernel, endpoint, config, path, kernel_port
        self.under_way, self.count, self.jobs, self.wakes = [], 0, collections.deque(), None
        self.taken, self.resets, self.again, self.dropped, self.last = [], [], 0, collections.Counter(), None
        self.takes, self.watch = True, None         # whether its user takes; a function of a direction and a packet, of what goes on in its place
        self.faults = kernel.faults = Faults()
        kernel.lines.clear()

    def carry(self, way, packet):
        if self.watch:
            packet = self.watch(way, packet)
        if packet is None:
            return
        arrivals = self.path.arrivals()
        if way is FROM_LINUX:
            self.faults.see(packet)
        self.kernel.note('%s %s%s' % ('to Linux:' if way else 'from Linux:', printed(packet), '' if arrivals else ' .. lost'))
        for wait in arrivals:
            self.count += 1
            heapq.heappush(self.under_way, (clock() + wait, self.count, way, packet))

    def arrive(self, packet):
        """A packet of the kernel's arrives: the endpoint is polled after each, as its header asks."""
        had_ended = self.status().ended
        verdict = self.endpoint.handle_packet(now(), packet)
        if had_ended is None and self.status().ended is not None:
            self.last = printed(packet) + (' -> ' + printed(verdict.answer) if verdict.answer else '')
        if verdict.answer is not None:
            self.carry(TO_LINUX, verdict.answer)
        if verdict.reason is not None:
            self.dropped[verdict.reason.name] += 1
        self.poll()
        while (reset := self.endpoint.take_reset()) is not None:
            self.resets.append(reset)

    def poll(self, most=1 << 30):
        """Whether there may be more."""
        for _ in range(most):
            sent = self.endpoint.poll_transmit(now())
            if sent is None:
                return False
            self.carry(TO_LINUX, sent.packet)
        return True

    def status(self):
        return self.endpoint.status()

    def send(self):
        """Its user sends what waits, as far as the endpoint accepts it; a stream whose reset was refused is reset again."""
        while self.jobs and self.status().state == State.ESTABLISHED:
            job = self.jobs[0]
            until = None if job.lifetime is None else now() + job.lifetime
            try:
                self.endpoint.send(job.stream, body(job.number, job.length), job.ordered, PAYLOAD, until, job.retransmissions)
            except Refused as refused:
                if refused.result == Result.RESETTING and not self.endpoint.resetting(job.stream):
                    self.endpoint.reset(job.stream)
                    self.again += 1
                elif refused.result not in (Result.QUEUE_FULL, Result.RESETTING):
                    raise
                return
            self.jobs.popleft()
            if until is not None:
                self.wakes = clock() + 0.01

    def turn(self, until):
        """What is due, then waiting for a packet, a timer, or a time."""
        while self.under_way and self.under_way[0][0] <= clock():
            _, _, way, packet = heapq.heappop(self.under_way)
            if way is FROM_LINUX:
                self.arrive(packet)
            elif not self.kernel.send(packet):
                self.kernel.note('no space for a packet')
        self.send()
        self.endpoint.on_moment(now())
        more = self.poll(POLLS)
        while self.takes and (stream := self.endpoint.readable()) is not None:
            self.taken.append(self.endpoint.take(stream))
        self.rest(0 if more else until)

    def rest(self, until):
        moment, card, out = self.status().next_moment, self.kernel.card, self.kernel.process.stdout
        due = [self.under_way[0][0] if self.under_way else None, None if moment is None else moment / 1000 + 0.001, self.wakes]
        wait = min([until] + [time for time in due if time is not None]) - clock()
        ready = select.select([card, out], [], [], max(0, wait))[0]
        if self.wakes is not None and self.wakes <= clock():    # the lifetimes of messages aren't part of next_moment
            self.wakes = clock() + 0.01 if self.status().outstanding or self.status().queued else None
        if out in ready:
            self.kernel.read()
        if card in ready:
            for packet in self.kernel.received():
                self.carry(FROM_LINUX, packet)

    def run(self, seconds, wanted=None):
        """Goes on until it is as wanted, or the time is over; whether it is as wanted. On a busy machine it waits longer for what is wanted."""
        ends = clock() + seconds * (self.kernel.patience if wanted else 1)
        while clock() < ends and not (wanted and wanted()):
            self.turn(min(ends, clock() + 0.1))
        return bool(wanted and wanted())

    def told(self):
        """The kernel's program has done all that it was told to."""
        return self.kernel.done == self.kernel.told

    def is_up(self):
        return self.status().state == State.ESTABLISHED and any(line.startswith('up ') for line in self.kernel.lines)

    def seen(self):
        """What is known of both sides, for who reads that something is wrong."""
        status = self.status()
        return 'endpoint %s, outstanding %d, queued %d, resetting %d, ended %s after %s; Linux: %s; faults: %s' % (
            status.state.name, status.outstanding, status.queued, status.resetting, status.ended and status.ended.name, self.last,
            ', '.join(self.kernel.events()[-4:] + self.kernel.answer('status')[-2:]), self.faults)

    def close(self, by='endpoint', seconds=90):
        """Closes it gracefully, and returns how long that took."""
        began = clock()
        if by in ('endpoint', 'both'):
            self.endpoint.shutdown()
        if by in ('Linux', 'both'):
            self.kernel.tell('shut')
        reports = ('event association shutdown-complete', 'event eof', 'event error', 'event hung up')
        over = self.run(seconds, lambda: self.status().ended is not None and any(self.kernel.reports(text) for text in reports))
        need(over and self.status().ended == Ended.COMPLETED, 'not closed:', self.seen)
        took = clock() - began
        self.run(0.2)
        need(not self.kernel.reports('association lost'), 'closed, and Linux reports that it is lost')
        return took


def config_of(own, peer, mode='data-pr', streams=100, **options):
    words = dict(packet_limit=1452, fragment=1400, buffer=4 << 20, outbound=streams, inbound=streams, interleave=mode.startswith('idata'),
                 partial=mode.endswith('pr'), stream_reset=True)
    return Config(own, peer, **{**words, **options})


def prepare(kernel, mode, udp=None, resets=1):
    """Sets what the kernel's next socket offers, and how its packets go: the UDP ports of the endpoint and of the kernel, or none."""
    kernel.udp = udp
    kernel.tell('gso %d' % (not udp), 'set net/sctp/udp_port %d' % (udp[1] if udp else 0), 'set net/sctp/encap_port %d' % (udp[0] if udp else 0),
                'set net/sctp/intl_enable %d' % mode.startswith('idata'), 'set net/sctp/prsctp_enable %d' % mode.endswith('pr'),
                'set net/sctp/reconf_enable %d' % bool(resets), 'number 0', 'quiet 0')


def opened(kernel, mode='data-pr', caller='endpoint', streams=100, path=None, udp=None, resets=1, first=(), wait=60, draw=None, **options):
    """An association that either called; `first` are lines to the kernel's socket before."""
    own = next(ports)
    config = config_of(own, own + 1, mode, streams, **options)
    prepare(kernel, mode, udp, resets)
    kernel.tell('make %d %d %d' % (own + 1, streams, streams), *['interleave'] * mode.startswith('idata'), *['resets %d' % resets] * bool(resets), *first)
    endpoint = Endpoint.caller(config) if caller == 'endpoint' else Endpoint.listener(config, os.urandom(32))
    association = Association(kernel, endpoint, config, path or Path(), own + 1)
    if caller == 'endpoint':
        kernel.tell('listen')
    association.run(10, association.told)
    need(not kernel.events(), 'Linux refuses:', kernel.events())
    if caller == 'endpoint':
        endpoint.connect(now(), draw)
    else:
        kernel.tell('connect %s %d' % (HOST, own))
    need(association.run(wait, association.is_up), 'not opened:', association.seen)
    return association
