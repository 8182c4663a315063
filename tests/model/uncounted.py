"""A pair of the model whose B doesn't count a request that it answers "in progress": it looks at the last TSN first, and expects the number again.
While a request of its own is outstanding it answers "request already in progress", and counts that. It remembers two results."""

import resets
from dated import DatedPair
from endpoint import ESTABLISHED
from resets import ANOTHER_IN_PROGRESS, BAD_NUMBER, IN_PROGRESS, PERFORMED


class Incoming(resets.Incoming):
    """The receiver's half."""

    def __init__(self, receiver, end):
        super().__init__(receiver)
        self.end, self.results = end, []

    def on_request(self, request, limit):
        result = self.result_in_turn(request)
        if result != IN_PROGRESS:
            result = self.counted(request, result)
        self.add_answer(request.number, result, limit)

    def counted(self, request, result):
        """The last two are answered as before."""
        back = (self.receiver.tsn(self.taken) - request.number) % 2**32
        if back < len(self.results):
            return self.results[back]
        if not self.is_next(request.number):
            return BAD_NUMBER
        if self.end.state == ESTABLISHED and self.end.sender.resets.pending is not None:
            result = ANOTHER_IN_PROGRESS
        if result == PERFORMED:
            for stream in request.streams or range(self.receiver.streams):
                self.begin_anew(stream)
                self.told[stream] = len(self.handed_on(stream))
        self.taken, self.results = self.taken + 1, [result, *self.results][:2]
        return result


class Pair(DatedPair):
    """Two ends, of which B is such a peer from the beginning of its association on."""

    def open(self):
        outcome = super().open()
        end = self.ends['B']
        if end.receiver is not None:
            end.receiver.resets = Incoming(end.receiver, end)
        return outcome
