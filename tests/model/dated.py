"""A pair of the model whose packets have dates, and runs that are held against the promises.

A packet's date is how many TSNs each end had assigned when it was built; its age where it comes is how
many more each has assigned since, of the two the greater.
"""

from collections import namedtuple

import model
from endpoint import ABORTED_HERE
from promises import Promises

# What becomes of a run.
KEPT, ENDED, BROKEN = 'all promises are kept', 'an association is ended', 'a promise is broken'

# The first fault and its line, None where there is none; how many TSNs both ends assigned, and packets
# came; the greatest age of these, and the last line where one of it came.
Told = namedtuple('Told', 'result fault line assigned deliveries age place')


class DatedPair(model.Pair):
    """Two ends, the dates of their packets, and what was promised."""

    def __init__(self, *values):
        super().__init__(*values)
        self.dates = {'A': [], 'B': []}
        self.ages = []                        # of each delivery
        self.promises = Promises()
        self.wrongly_told = None              # the first report of a reset that is wrong

    def assigned(self):
        """How many TSNs each end has assigned."""
        return [end.sender.last() if end.sender else 0 for end in self.ends.values()]

    def ages_of(self, x):
        """The age of each packet of this bag, if it came now."""
        a, b = self.assigned()
        return [max(a - then_a, b - then_b) for then_a, then_b in self.dates[x]]

    def into_bag(self, x, word, packet):
        self.dates[x].append(self.assigned())
        return super().into_bag(x, word, packet)

    def deliver(self, x, n):
        if 1 <= n <= len(self.bags[x]):
            self.ages.append(self.ages_of(x)[n - 1])
        return super().deliver(x, n)

    def send(self, x, stream, kind, payload_id, limits, data):
        outcome = super().send(x, stream, kind, payload_id, limits, data)
        if outcome.startswith('ticket'):
            self.promises.of[x].accept(int(outcome.split(' ')[2]), stream, kind == 'o', payload_id, data)
        return outcome

    def reset(self, x, stream):
        outcome = super().reset(x, stream)
        if outcome == 'ok':
            self.promises.of[x].reset(stream)
        return outcome

    def resets(self, x):
        outcome = super().resets(x)
        if outcome.startswith('reset'):
            stream, count = (int(word) for word in outcome.split(' ')[2:])
            wrong = self.promises.of[model.OTHER[x]].told(stream, count, self.ends[x].receiver.waiting)
            self.wrongly_told = self.wrongly_told or wrong
        return outcome

    def build(self, x):
        known = len(self.tickets[x])
        outcome = super().build(x)
        self.promises.of[x].number(self.tickets[x][known:])
        return outcome


class Run:
    """Lines of a script, the age of each delivery, and the first fault. No line may be an `abort`."""

    def __init__(self):
        self.lines, self.outcome, self.script = [], None, model.Script(self.heard)
        self.dated = []                       # (age, line) of each delivery
        self.fault = self.faulty_line = None

    def heard(self, outcome):
        self.outcome = outcome

    @property
    def pair(self):
        return self.script.pair

    def line(self, *words):
        """Writes one line and runs it; the outcome."""
        text = ' '.join(str(word) for word in words)
        self.lines.append(text)
        self.script.line(text.encode(), len(text) + 1)
        if self.pair is not None:
            self.dated += [(age, len(self.lines)) for age in self.pair.ages[len(self.dated):]]
            if self.fault is None:
                self.fault = self.pair.promises.broken(self.pair.ends) or self.pair.wrongly_told or self.wrongly_ended()
                self.faulty_line = len(self.lines) if self.fault is not None else None
        return self.outcome

    def wrongly_ended(self):
        """Both ends keep the rules, and no user aborts."""
        ended = [x for x, end in self.pair.ends.items() if end.ended == ABORTED_HERE]
        return 'end %s ended the association for a fault of its peer' % ended[0] if ended else None

    def result(self):
        if self.fault is None:
            return KEPT
        return ENDED if self.fault == self.wrongly_ended() else BROKEN

    def told(self):
        age, place = max(self.dated, default=(0, 0))
        return Told(self.result(), self.fault, self.faulty_line, sum(self.pair.assigned()), len(self.dated), age, place)


def played(lines):
    """What is told of these lines."""
    run = Run()
    for line in lines:
        run.line(line)
    return run.told()
