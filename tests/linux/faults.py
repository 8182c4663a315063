"""The faults of Linux that these trials meet, each by the section that it breaks, and those that are recognised in its packets as they go by."""

import collections

from packets import FIRST, LAST, answered, pieces

FRAGMENT_NUMBERS = 'RFC 8260, 2.1: it numbers the fragments of an I-DATA message 0, 0, 1'
I_FORWARD = 'RFC 8260, 2.2.1: it sends I-FORWARD-TSN, which it didn\'t list'
UNFINISHED = 'RFC 9260, 6.9: a message that it gives up ends before its last fragment, and the next TSN begins another one'
NOT_COUNTED = 'RFC 6525, 5.2.1: a request that it answers "in progress" isn\'t counted, and the next ones have a bad number'
DENIED_TSNS = 'RFC 6525, 4.4: a response without the two optional fields doesn\'t end its request to reset TSNs, and it sends no more'
PLAIN_ORDER = 'RFC 9260, 2.6: it compares the last TSN of a request as a plain number: one before the wrap stays in progress'
BAD_NUMBER, IN_PROGRESS = 5, 6                          # results of RFC 6525, 4.4


class Faults:
    """Those that were found in the packets of one association, and how often."""

    def __init__(self):
        self.pieces, self.results, self.found = {}, {}, collections.Counter()

    def __str__(self):
        return '; '.join('%s (%d)' % it for it in self.found.items()) or 'none'

    def see(self, packet):
        """A packet that Linux sends."""
        for piece in pieces(packet):
            self.see_piece(piece)
        for number, result in answered(packet):
            self.see_result(number, result)

    def see_piece(self, piece):
        """Fragments have consecutive TSNs up to the last one, but for I-DATA, of which each has its number."""
        if piece.tsn in self.pieces or piece.interleaved:
            return
        self.pieces[piece.tsn] = piece
        before, after = self.pieces.get((piece.tsn - 1) % 2**32), self.pieces.get((piece.tsn + 1) % 2**32)
        for one, other in ((before, piece), (piece, after)):
            if one and other and not one.flags & LAST and (other.flags & FIRST or other.stream != one.stream):
                self.found[UNFINISHED] += 1

    def see_result(self, number, result):
        """The request after one that was answered "in progress" has the next number, and that isn't a bad one."""
        before = self.results.get((number - 1) % 2**32)
        if number not in self.results and result == BAD_NUMBER and before in (IN_PROGRESS, BAD_NUMBER):
            self.found[NOT_COUNTED] += 1
        self.results.setdefault(number, result)
