"""What a trial is, and the exchanges that many trials make."""

import collections
import struct

from association import Job, clock, need, opened
from packets import body

Trial = collections.namedtuple('Trial', 'name run fault excused')
TRIALS = []
SIZES = (1, 2, 3, 4, 7, 8, 100, 1199, 1200, 1201, 1452, 1453, 5000, 65535, 65536)
OF_ONE_FRAGMENT = tuple(size for size in SIZES if size <= 1400) + (1399, 1400)
LIFETIME, RETRANSMISSIONS = 16, 32                  # policies of the kernel's (RFC 7496)


def trial(name, fault=None, excused=(), **words):
    """The function makes the trial of this name: it returns what is to be printed, or raises Wrong. `fault`: it returns only if this fault of
    Linux's was seen. `excused`: with one of these faults in the packets (`Faults`) the trial may go wrong."""
    def put(function):
        TRIALS.append(Trial(name, lambda kernel: function(kernel, **words), fault, excused))
        return function
    return put


class Talk:
    """Numbered messages each way: (stream, length, weak) by number, and what is known of those that arrived."""

    def __init__(self, association):
        self.association, self.of_endpoint, self.of_linux = association, {}, {}
        self.before = len(association.kernel.messages()), len(association.taken)

    def from_endpoint(self, number, stream, length, ordered=True, lifetime=None, retransmissions=None):
        weak = lifetime is not None or retransmissions is not None
        self.of_endpoint[number] = stream, length, weak
        self.association.jobs.append(Job(stream, number, length, ordered, lifetime, retransmissions))

    def from_linux(self, number, stream, length, ordered=True, policy=0, value=0):
        self.of_linux[number] = stream, length, bool(policy)
        self.association.kernel.tell('number %d' % number, 'say %d %d 1 %d %d %d' % (stream, length, not ordered, policy, value))

    def at_linux(self):
        for stream, length, payload, unordered, _, number, judged in self.association.kernel.messages()[self.before[0]:]:
            need(judged != 'bad' and payload == '7', 'contents or identifier at Linux:', stream, length, number)
            yield int(stream), int(length), unordered == '0', int(number) if judged == 'good' else None

    def at_endpoint(self):
        for message in self.association.taken[self.before[1]:]:
            number, _ = struct.unpack('>II', message.bytes[:8]) if len(message.bytes) >= 8 else (None, None)
            need(number is None or message.bytes == body(number, len(message.bytes)), 'contents of', number)
            need(message.payload_id == 7, 'identifier of', number)
            yield message.stream, len(message.bytes), message.ordered, number

    def missing(self, sent, arrived):
        """How many arrived, and which reliable ones did not: what arrived was sent, once, and on each stream in order. Shorter ones are counted alone."""
        seen, latest, count = set(), {}, 0
        for stream, length, ordered, number in arrived:
            count += 1
            if number is None:
                continue
            need(sent.get(number, ())[:2] == (stream, length), 'never sent:', number, 'stream', stream, 'length', length)
            need(number not in seen, 'twice:', number)
            need(not ordered or latest.get(stream, -1) < number, 'order:', number, 'on stream', stream)
            seen.add(number)
            if ordered:
                latest[stream] = number
        return count, [number for number, (_, length, weak) in sent.items() if length >= 8 and not weak and number not in seen]

    def is_over(self):
        association = self.association
        status = association.status()
        need(status.ended is None, 'ended:', association.seen)
        if association.jobs or status.outstanding or status.queued:
            return False
        counts = len(association.kernel.messages()) - self.before[0], len(association.taken) - self.before[1]
        for count, sent in zip(counts, (self.of_endpoint, self.of_linux)):
            if count < sum(not weak for _, _, weak in sent.values()):
                return False
        return not self.missing(self.of_endpoint, self.at_linux())[1] and not self.missing(self.of_linux, self.at_endpoint())[1]

    def wait(self, seconds):
        """Until all reliable messages have arrived; the seconds that it took."""
        began = clock()
        need(self.association.run(seconds, self.is_over), lambda: 'missing after %d s: at Linux %s, at the endpoint %s; %s' % (
            seconds, self.missing(self.of_endpoint, self.at_linux())[1][:6], self.missing(self.of_linux, self.at_endpoint())[1][:6], self.association.seen()))
        return clock() - began


def exchange(association, messages=20, streams=5, seconds=60, sizes=(100,), first=0, mixed=False, weak=None, policy=(0, 0)):
    """Messages each way, of each size in turn, if mixed each third unordered; each second one is weak if `weak` are the endpoint's limits, or
    `policy` is one of the kernel's. Returns the talk and how long it took."""
    talk = Talk(association)
    for number in range(first, first + messages):
        stream, length, ordered, limited = number % streams, sizes[number % len(sizes)], not mixed or number % 3 != 2, number % 2 == 1
        talk.from_endpoint(number, stream, length, ordered, **(weak or {}) if limited else {})
        talk.from_linux(number, stream, length, ordered, *policy if limited else (0, 0))
    return talk, talk.wait(seconds)


def open_and_greet(kernel, mode='data-pr', **words):
    """An association over which twenty messages went each way."""
    association = opened(kernel, mode, **words)
    exchange(association)
    return association


def retransmitted(association):
    counts = association.endpoint.counts()
    return 'retransmitted %d by timer, %d fast' % (counts.timer_retransmitted, counts.fast_retransmitted)
