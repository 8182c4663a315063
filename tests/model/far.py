#!/usr/bin/env python3
"""The lines that the program of tests/far prints, as the model's sender gives them.

far.py abandoned FRAGMENTS POWER .. < STEPS     DATA: the index comes to each 2^POWER by messages of so many
                                                fragments that are abandoned
far.py delivered POWER .. < STEPS               I-DATA: by messages of a byte, whose MIDs come to the first
                                                2^POWER with the index

The way to a place is told, not gone: the sender's view is set to what the messages of the way leave
behind them. With `whole` before the other words the model goes it, message by message.
"""

import sys

from calls import Case
from endpoint import Writer
from sender import Message, Sender

FRAGMENT, RWND = 4, 65_536
LEAD, WRAP = 5, 3              # the calls begin so far below a place; the TSN wraps so far above the last one
SSNS = 2**16
ONE = 36                       # a packet of so many bytes has one fragment of the way


class Rest:
    """A list of which only the end is kept: `gone` items, each like the one given, and then some."""

    def __init__(self, gone, like):
        self.gone, self.like, self.kept = gone, like, []

    def __len__(self):
        return self.gone + len(self.kept)

    def __iter__(self):
        return iter(self.kept)

    def __getitem__(self, at):
        return self.like if at < self.gone else self.kept[at - self.gone]

    def append(self, item):
        self.kept.append(item)


def settled(abandoned):
    """A message of long ago: it had index 1, which is acknowledged, and was abandoned or not."""
    message = Message(0, 0, True, 0, b'\0', None)
    message.indexes, message.abandoned = [1], abandoned
    return message


class Way:
    """A sender of two streams, brought to one place after the other."""

    def __init__(self, interleave, fragments, places, whole):
        self.fragments, self.whole = fragments, whole
        self.case = Case(interleave)
        initial = (1 - (places[-1] + WRAP)) % 2**32
        self.case.sender = self.sender = Sender(interleave, initial, 2, FRAGMENT, RWND, True)

    def go(self, goal):
        counts = self.counts(goal)
        if self.whole:
            for stream, ordered in self.in_turn(counts):
                self.message(goal, stream, ordered)
        else:
            self.set(goal, counts)

    # ---- The messages of a way ----

    def counts(self, goal):
        """How many there are, by stream and whether they are ordered. Those that are delivered are all of
        one lane; those that are abandoned go on both streams in turn."""
        left = goal - self.sender.cum
        if not self.fragments:
            return {(0, True): left}
        messages, counts = -(-left // self.fragments), {}
        for stream in (0, 1):
            of_stream = len(range(stream, messages, 2))
            last = self.sender.numbers.get((stream, True), 0) + of_stream
            # SSN 65,534 comes next on stream 0, and 65,533 on stream 1, where there are enough for that.
            beyond = (last - (SSNS - 2 - stream)) % SSNS
            unordered = beyond if beyond <= of_stream else 0
            counts[stream, True], counts[stream, False] = of_stream - unordered, unordered
        return counts

    @staticmethod
    def in_turn(counts):
        """Their order: a stream's ordered ones are its first."""
        left, streams = dict(counts), sorted({stream for stream, _ in counts})
        for message in range(sum(counts.values())):
            stream = streams[message % len(streams)]
            ordered = left[stream, True] > 0
            left[stream, ordered] -= 1
            yield stream, ordered

    def set(self, goal, counts):
        """What is left where all of these messages are settled, and all indexes to the goal."""
        sender = self.sender
        like = settled(bool(self.fragments))
        sender.messages = Rest(len(sender.messages) + sum(counts.values()), like)
        sender.plan = Rest(goal + 1, None)
        sender.cum, sender.covered, sender.rwnd = goal, set(), RWND
        for (stream, ordered), count in counts.items():
            if ordered or sender.interleave:
                sender.numbers[stream, ordered] = sender.numbers.get((stream, ordered), 0) + count
        if sender.interleave:
            sender.served = 0

    def message(self, goal, stream, ordered):
        """A message of the way, as it goes."""
        sender = self.sender
        size = min(goal - sender.cum, self.fragments) * FRAGMENT if self.fragments else 1
        ticket = sender.send(stream, ordered, 0, bytes(size), None)
        tickets = sender.fill(Writer(ONE))
        assert tickets == [ticket]
        if self.fragments:
            assert sender.abandon(ticket) == 2
        found = type('Sack', (), {})()
        found.cumulative, found.rwnd, found.blocks = sender.tsn(sender.last()), RWND, []
        assert sender.on_sack(found) is None and sender.drained()

    # ---- Calls ----

    def readers(self):
        return 'tickets %d %s' % (len(self.sender.messages), self.case.on_sending())

    def call(self, step):
        """The call that a line says, with the numbers that it stands for."""
        words, sender = step.split(' '), self.sender
        if words[0] in ('sack', 'shutdown'):
            index = sender.point() if words[1] == 'point' else sender.cum + int(words[1])
            words[1] = str(sender.tsn(index))
        if words[0] in ('abandon', 'fate') and words[1].startswith('-'):
            words[1] = str(len(sender.messages) + int(words[1]))
        return words


def main():
    words = sys.argv[1:]
    whole = words[0] == 'whole'
    kind, *numbers = words[1:] if whole else words
    fragments = int(numbers.pop(0)) if kind == 'abandoned' else 0
    places = [2**int(power) for power in numbers]
    steps = sys.stdin.read().splitlines()
    way = Way(kind == 'delivered', fragments, places, whole)
    for place in places:
        way.go(place - LEAD)
        print('= %d' % place)
        print(way.readers())
        for step in steps:
            words = way.call(step)
            print(' '.join(words))
            print(way.case.answer(words[0], words[1:]))
            print(way.readers())


if __name__ == '__main__':
    main()
