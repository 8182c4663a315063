#!/usr/bin/env python3
"""Compares `sctp-end` with the model's ends, packets byte for byte, on random scripts.

ends.py [--program P] N [SEED]: each script opens by packets; what comes to an end is what came to it
in the model's run. After each line the state, the next moment, the held bytes, those in reassembly and
the status are asked too. The ends of every third script close by the RFC's timers. In half of the scripts
the two ends differ; with --unlike in all. With --limited they are those of limited.py: limits of
retransmissions; with --paced those of paced.py: fast retransmit and congestion control too; with --options
those of mixed.py: every option of each end is chosen at random; with --resets those of resetting.py: streams are
reset; with the last three the line `path` is asked, with --counts the line `counts`.
ends.py --write FILE N [SEED] writes the lines of each end and the answers wanted, and runs nothing.
"""

import argparse
import os
import subprocess
import sys

import limited
import mixed
import model
import paced
import resetting
import scripts
from end import counts_of, path_of, reassembly_of, status_of
from pace import LEAST_WAIT

HERE = os.path.dirname(os.path.abspath(__file__))


class Recorder:
    """The lines for one end and the answers wanted."""

    def __init__(self):
        self.lines, self.answers = [], []

    def add(self, line, answer):
        self.lines.append(line)
        self.answers.append(answer)


class RecordedPair(model.Pair):
    """A pair that notes what each end was told and what it answered."""

    last, standard_closing, more = None, False, ()

    def __init__(self, limit, fragment, buffer, streams, mode, delay=None):
        super().__init__(limit, fragment, buffer, streams, mode, delay)
        for config in self.configs.values():
            config.standard_closing = self.standard_closing
        self.notes = {'A': Recorder(), 'B': Recorder()}
        RecordedPair.last = self

    def words(self, x):
        """The words of `sctp-end` for this end."""
        config = self.configs[x]
        mode = {on: name.decode() for name, on in model.MODES.items()}[config.partial, config.interleave]
        values = [str(value) for value in (config.limit, config.fragment, config.buffer, config.outbound)] + [mode]
        values += ['delay'] * config.delay + ['standard-closing'] * config.standard_closing
        both = config.fast_retransmit and (x == 'B' or not config.congestion_control)      # the latter sets the former
        values += ['fast-retransmit'] * both + ['congestion-control'] * config.congestion_control + ['reset'] * config.reset
        values += ['rto-min', str(config.rto_min)] * (config.rto_min != LEAST_WAIT)
        return {'A': ['caller', *values, '5000', '5001'], 'B': ['listener', *values, '5001', '5000', model.KEY.hex()]}[x]

    def note(self, x, line, answer):
        self.notes[x].add(line, answer)
        end = self.ends[x]
        moment = end.next_moment()
        self.notes[x].add('state', 'state %s %s' % (end.state, end.ended or '-'))
        self.notes[x].add('next', 'next %s' % ('-' if moment is None else moment))
        self.notes[x].add('held', 'held %d' % (end.receiver.held if end.receiver else 0))
        self.notes[x].add('reassembly', 'reassembly %d' % reassembly_of(end))
        self.notes[x].add('status', status_of(end))
        for line, answer in self.more:
            self.notes[x].add(line, answer(end))

    def without_side(self, outcome):
        """An outcome line of a script without its end."""
        words = outcome.split(' ')
        return ' '.join(words[:1] + words[2:])

    def bytes_of(self, x, outcome):
        """The same with the packet in place of its number and length."""
        word = outcome.split(' ')[0]
        return '%s %s' % (word, self.bags[x][-1].hex()) if word in ('sent', 'answer') else self.without_side(outcome)

    def moment(self, x):
        outcome = super().moment(x)
        self.note(x, 'at %d' % self.clocks[x], 'ok')
        return outcome

    def draw(self, drawn_tag, tsn):
        for x in 'AB':
            self.note(x, 'draw %d %d' % (drawn_tag, tsn), 'ok')
        return super().draw(drawn_tag, tsn)

    def connect(self, drawn_tag, tsn):
        outcome = super().connect(drawn_tag, tsn)
        self.note('A', 'connect %d %d' % (drawn_tag, tsn), outcome)
        return outcome

    def build(self, x):
        outcome = super().build(x)
        self.note(x, 'build', self.bytes_of(x, outcome))
        return outcome

    def arrive(self, y, packet):
        outcome = super().arrive(y, packet)
        self.note(y, 'packet ' + model.hex_text(packet), self.bytes_of(y, outcome))
        return outcome

    def send(self, x, stream, kind, payload_id, limits, data):
        outcome = super().send(x, stream, kind, payload_id, limits, data)
        until, limit = limits
        word = ('' if until is None else str(until)) + ('' if limit is None else 'x%d' % limit)
        line = 'send %d %s %d %s %s' % (stream, kind, payload_id, word or '-', model.hex_text(data))
        self.note(x, line, outcome if outcome.startswith('refused') else self.without_side(outcome))
        return outcome

    def abandon(self, x, ticket):
        outcome = super().abandon(x, ticket)
        self.note(x, 'abandon %d' % ticket, self.without_side(outcome))
        sender = self.ends[x].sender
        known = sender is not None and 1 <= ticket <= len(sender.messages)
        message = sender.messages[ticket - 1] if known else None
        self.notes[x].add('acknowledged %d' % ticket, 'yes' if known and sender.acknowledged(message) else 'no')
        self.notes[x].add('abandoned %d' % ticket, 'yes' if known and message.abandoned else 'no')
        return outcome

    def take(self, x, stream):
        outcome = super().take(x, stream)
        self.note(x, 'take %d' % stream, self.without_side(outcome))
        return outcome

    def reset(self, x, stream):
        outcome = super().reset(x, stream)
        self.note(x, 'reset %d' % stream, outcome)
        return outcome

    def resets(self, x):
        outcome = super().resets(x)
        self.note(x, 'resets', self.without_side(outcome))
        return outcome

    def shutdown(self, x):
        outcome = super().shutdown(x)
        self.note(x, 'shutdown', outcome)
        return outcome

    def abort(self, x, reason):
        outcome = super().abort(x, reason)
        self.note(x, 'abort ' + model.hex_text(reason),
                  outcome if outcome.startswith('refused') else self.bytes_of(x, outcome))
        return outcome


class OneEnd:
    """
    A maker of scripts without `open`, which one end alone has no line for, and of ends with as many streams each way. An end whose clock goes on
    is notified of it at once, as by `at` of `sctp-end`.
    """

    def streams_words(self):
        return [self.pick(self.streams)] * 2

    def wrong_options(self, named):
        return self.right_options(named)

    def goes_on(self, x, moment):
        self.line('later', x, moment)
        self.line('moment', x)

    def open(self):
        if self.pair is not None and self.pair.may_open:
            self.open_by_packets()


class OpensByPackets(OneEnd, scripts.Maker):
    """Such a random script."""


class LimitedByPackets(OneEnd, limited.Limited):
    """Such a script of limited.py."""


class PacedByPackets(OneEnd, paced.Paced):
    """Such a script of paced.py."""


class MixedByPackets(OneEnd, mixed.Mixed):
    """Such a script of mixed.py."""


class ResettingByPackets(OneEnd, resetting.Resetting):
    """Such a script of resetting.py."""


def recorders(seed, share, maker=OpensByPackets):
    """The words of each end of this random script, the lines and the answers."""
    script, plain = maker(seed, share).make().encode(), model.Pair
    RecordedPair.last, RecordedPair.standard_closing, model.Pair = None, seed % 3 == 0, RecordedPair
    try:
        model.run(script, lambda line: None)
    finally:
        model.Pair = plain
    pair = RecordedPair.last
    return [(x, pair.words(x), pair.notes[x]) for x in 'AB'] if pair is not None else []


def difference(program, words, recorder):
    """(line, program's answer, model's answer) of the first that differ, or None."""
    told = ''.join(line + '\n' for line in recorder.lines).encode()
    done = subprocess.run([program, *words], input=told, capture_output=True, check=False)
    answers = done.stdout.decode('latin1').split('\n')[:-1]
    answers += ['(nothing, status %d)' % done.returncode] * (len(recorder.lines) - len(answers))
    for told, theirs, ours in zip(recorder.lines, answers, recorder.answers):
        if theirs != ours:
            return told, theirs, ours
    return None


def write(file, name, words, recorder):
    file.write('\n= %s\n$ sctp-end %s\n' % (name, ' '.join(words)))
    file.write(''.join('> %s\n' % line for line in recorder.lines))
    file.write(''.join('< %s\n' % line for line in recorder.answers))


def main():
    parser = argparse.ArgumentParser()
    parser.add_argument('--program', default=os.path.join(HERE, '..', '..', 'sctp-end'))
    parser.add_argument('--write')
    parser.add_argument('--unlike', action='store_true')
    parser.add_argument('--limited', dest='maker', action='store_const', const=LimitedByPackets)
    parser.add_argument('--paced', dest='maker', action='store_const', const=PacedByPackets)
    parser.add_argument('--options', dest='maker', action='store_const', const=MixedByPackets)
    parser.add_argument('--resets', dest='maker', action='store_const', const=ResettingByPackets)
    parser.add_argument('--counts', action='store_true')
    parser.add_argument('count', type=int)
    parser.add_argument('seed', type=int, nargs='?', default=1)
    asked = parser.parse_args()
    share, maker = 1 if asked.unlike or asked.maker else 0.5, asked.maker or OpensByPackets
    RecordedPair.more = (('path', path_of),) * (asked.maker in (PacedByPackets, MixedByPackets, ResettingByPackets)) + (('counts', counts_of),) * asked.counts
    count = lines = differing = 0
    file = open(asked.write, 'w', encoding='ascii') if asked.write else None
    for seed in range(asked.seed, asked.seed + asked.count):
        for x, words, recorder in recorders(seed, share, maker):
            count += 1
            lines += len(recorder.lines)
            name = 'seed-%d %s' % (seed, x)
            if file is not None:
                write(file, name, words, recorder)
                continue
            found = difference(asked.program, words, recorder)
            if found is not None:
                differing += 1
                print('%s: %.200s: program %.200s, model %.200s' % (name, *found), flush=True)
    if file is not None:
        file.close()
    print('%d ends, %d lines, %d differ' % (count, lines, differing))
    return 1 if differing else 0


if __name__ == '__main__':
    sys.exit(main())
