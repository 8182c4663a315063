"""Resets of streams (RFC 6525), by either side and by both."""

from association import Job, Path, clock, need, opened
from faults import DENIED_TSNS, NOT_COUNTED, PLAIN_ORDER
from packets import RE_CONFIG, answered, asked, has, pieces
from sctp_endpoint import Draw
from trial import exchange, open_and_greet, trial

STREAMS, ROUNDS, EACH = 20, 4, 2                        # messages on each stream in a round
DONE_BY_LINUX = 'stream-reset flags=0x2'
RESET_ALL = 7                                           # its socket takes part in resets of every kind


class Rounds:
    """Messages on each stream each way, then resets, again and again."""

    def __init__(self, association, by):
        self.association, self.kernel, self.by = association, association.kernel, by

    def talk(self, turn):
        sent, association = EACH * STREAMS, self.association
        at_linux, at_endpoint = len(self.kernel.messages()), len(association.taken)
        for n in range(sent):
            association.jobs.append(Job(n % STREAMS, turn * sent + n, 100))
            self.kernel.tell('say %d 100 1 0 0 0' % (n % STREAMS))

        def arrived():
            return len(self.kernel.messages()) == at_linux + sent and len(association.taken) == at_endpoint + sent

        association.run(90, lambda: arrived() or association.faults.found[NOT_COUNTED])
        need(arrived(), lambda: 'round %d: %d of %d at Linux, %d at the endpoint; %s' % (
            turn, len(self.kernel.messages()) - at_linux, sent, len(association.taken) - at_endpoint, association.seen()))
        numbers = sorted(int(words[4]) for words in self.kernel.messages()[at_linux:])
        first = 0 if self.by != 'Linux' else EACH * turn
        need(association.again or numbers == sorted(list(range(first, first + EACH)) * STREAMS), 'round', turn, 'SSNs at Linux:', sorted(set(numbers)))

    def reset(self, turn):
        association = self.association
        need(association.run(30, lambda: not association.status().outstanding), 'outstanding:', association.seen)
        if self.by != 'Linux':
            for stream in range(STREAMS):
                association.endpoint.reset(stream)
        if self.by != 'the endpoint':
            refused = [line for line in self.kernel.answer('reset out ' + ' '.join(map(str, range(STREAMS)))) if line.startswith('err')]
            need(not refused, 'round', turn, refused)
        need(association.run(90, lambda: not association.status().resetting), 'round', turn, association.seen)
        if self.by != 'the endpoint':
            done = association.run(90, lambda: sum(DONE_BY_LINUX in line for line in self.kernel.events()) > turn)
            need(done or not self.of_linux(), 'round', turn, 'of Linux:', association.seen)

    def of_linux(self):
        return [line for line in self.kernel.events() if 'stream-reset' in line]


def resets(kernel, by, lost=0.0, caller='endpoint'):
    association = opened(kernel, 'data-pr', caller, STREAMS, Path(lost), congestion_control=True)
    rounds, began = Rounds(association, by), clock()
    for turn in range(ROUNDS):
        rounds.talk(turn)
        rounds.reset(turn)
    rounds.talk(ROUNDS)
    closed = association.close()
    return '%d rounds of %d streams %.1f s, resets at the endpoint %d, asked again %d; closed %.2f s' % (
        ROUNDS, STREAMS, clock() - began, len(association.resets), association.again, closed)


for by in ('the endpoint', 'Linux'):
    for caller in ('endpoint', 'Linux'):
        trial('resets by %s, %s calls' % (by, caller), by=by, caller=caller)(resets)
    trial('resets by %s, 10 %% lost' % by, by=by, lost=0.1)(resets)
trial('resets by both', by='both', excused=(NOT_COUNTED,))(resets)
trial('resets by both, 10 % lost', by='both', lost=0.1, excused=(NOT_COUNTED,))(resets)


@trial('a reset while a message of another stream is missing', NOT_COUNTED)
def in_progress(kernel):
    association = opened(kernel, 'data-pr', streams=4, congestion_control=True)
    lost, said = [], []
    association.jobs.append(Job(0, 0, 100))
    need(association.run(20, lambda: len(kernel.messages()) == 1 and not association.status().outstanding), 'first:', association.seen)

    def watch(way, packet):
        said.extend('%d is %d' % (number % 1000, result) for number, result in (answered(packet) if not way else []))
        if way and not lost and any(piece.stream == 1 for piece in pieces(packet)):
            lost.append(packet)
            return None
        return packet
    association.watch = watch
    association.jobs.append(Job(1, 1, 100))
    association.run(0.02)
    association.endpoint.reset(0)
    need(association.run(60, lambda: not association.status().resetting), 'no response:', said)
    association.jobs.append(Job(0, 2, 100))
    again = association.run(10, lambda: len(kernel.messages()) == 3)
    need(association.faults.found[NOT_COUNTED] and not again, 'the fault wasn\'t seen:', said[:12])
    return 'its responses: %s ..; asked again %d times' % (', '.join(said[:8]), association.again)


@trial('Linux asks for resets of incoming streams, and for more streams')
def denied(kernel):
    association, told = open_and_greet(kernel, resets=RESET_ALL), {}
    for line in ('reset in 0 1', 'add 5 0', 'add 0 5'):
        before = len(kernel.lines)
        kernel.tell(line)
        association.run(5, lambda: len(kernel.lines) > before)
        told[line] = ', '.join(kernel.lines[before:])
    need(all(told.values()), 'not reported:', told)
    exchange(association, 20, first=20)
    association.close()
    return 'denied: %s; 20 messages each way after it' % told


@trial('Linux asks for a reset of TSNs', DENIED_TSNS)
def tsns(kernel):
    association, said = open_and_greet(kernel, resets=RESET_ALL), []

    def watch(way, packet):
        if has(packet, RE_CONFIG):
            said.append(('denied' if answered(packet)[:1] and answered(packet)[0][1] == 2 else 'answered') if way else 'asked')
        return packet
    association.watch = watch
    kernel.tell('reset-tsns')
    association.run(5, lambda: said[:3] == ['asked', 'denied', 'asked'])
    taken = len(association.taken)
    kernel.tell('say 0 100 1 0 0 0')
    arrives = association.run(5, lambda: len(association.taken) > taken)
    need('denied' in said, 'it wasn\'t denied:', said)
    need(not arrives and said.count('asked') > 1, 'the fault wasn\'t seen:', said)
    association.jobs.append(Job(0, 1000, 100))
    need(association.run(10, lambda: kernel.messages()[-1][5] == '1000'), 'nothing arrives at Linux', association.seen)
    return 'it asked %d times meanwhile, and its next message doesn\'t arrive; the endpoint\'s does' % said.count('asked')


@trial('a reset that names the last TSN before the wrap, after it', PLAIN_ORDER)
def wrapped(kernel):
    association = opened(kernel, 'data-pr', streams=2, draw=Draw(tsn=2**32 - 3))
    results, lost = [], []
    association.jobs.extend(Job(0, number, 100) for number in range(3))
    need(association.run(20, lambda: len(kernel.messages()) == 3 and not association.status().outstanding), 'first:', association.seen)

    def watch(way, packet):
        results.extend(result for _, result in (answered(packet) if not way else []))
        if way and not lost and asked(packet):
            lost.append(packet)
            return None
        return packet
    association.watch = watch
    association.endpoint.reset(0)
    need(association.run(10, lambda: bool(lost)), 'no request:', association.seen)
    association.jobs.extend(Job(1, number, 100) for number in range(3, 6))
    need(association.run(20, lambda: len(kernel.messages()) == 6 and not association.status().outstanding), 'second:', association.seen)
    association.run(20, lambda: len(results) >= 2)
    need(results[:2] == [6, 6], 'the fault wasn\'t seen: responses', results)
    return 'its responses: %s, though all TSNs up to 2 were acknowledged' % results
