"""What is promised of two ends, held against a run of the model: of one direction after the other.

A direction knows what its user handed in, and which tickets each packet newly numbered; by these it
counts the numbers by itself. Each message of a direction must have bytes of its own: by them it is
known again where it is handed over.
"""

from endpoint import COMPLETED


class Sent:
    """An accepted message: its call, and its number once it takes its first TSN."""

    def __init__(self, stream, ordered, payload_id, data):
        self.what = (stream, ordered, payload_id, data)
        self.stream, self.ordered, self.number = stream, ordered, None


class Direction:
    """What one end's user handed in, and what the end across handed over."""

    def __init__(self):
        self.sent, self.by_what = {}, {}      # by ticket; the ticket by stream, kind, payload id and bytes
        self.numbers, self.ordered = {}, {}   # ordered ones with a number: how many on a stream; their tickets
        self.open = []                        # tickets with a number, neither handed over nor abandoned
        self.handed, self.read = set(), 0     # tickets; how many the receiver had handed over
        self.last = {}                        # stream: the number and the ticket that were handed over last
        self.passed = {}                      # stream: all below was looked at
        self.resets = {}                      # stream: how many messages were accepted before each of its resets

    def accept(self, ticket, *call):
        sent = self.sent[ticket] = Sent(*call)
        assert sent.what not in self.by_what, 'each message has bytes of its own'
        self.by_what[sent.what] = ticket

    def number(self, tickets):
        """These messages took their first TSNs, in this order."""
        for ticket in tickets:
            sent = self.sent[ticket]
            if sent.ordered:
                sent.number = self.numbers.get(sent.stream, 0)
                self.numbers[sent.stream] = sent.number + 1
                self.ordered[sent.stream, sent.number] = ticket
            self.open.append(ticket)

    def reset(self, stream):
        """The stream is reset: from now on it takes no message until that is done."""
        bounds = self.resets.setdefault(stream, [])
        if bounds[-1:] != [len(self.sent)]:
            bounds.append(len(self.sent))

    def told(self, stream, count, waiting):
        """What is wrong with a report that the peer reset this stream, behind `count` of its messages that wait: those were
        accepted before one of its resets, the others behind it."""
        if stream not in self.resets:
            return 'stream %d is told as reset, and was never' % stream
        tickets = [self.by_what[m.stream, m.ordered, m.payload_id, m.data] for m in waiting if m.stream == stream]
        if count > len(tickets):
            return 'stream %d: %d messages are to wait, and %d do' % (stream, count, len(tickets))
        for bound in self.resets[stream]:
            if all(ticket <= bound for ticket in tickets[:count]) and all(ticket > bound for ticket in tickets[count:]):
                return None
        return 'stream %d: %d messages before its reset, of %s' % (stream, count, tickets)

    # ---- The promises ----

    def broken(self, sender, receiver):
        """The first promise that is broken, in words, or None."""
        if sender is None or receiver is None:
            return None
        for message in receiver.handed[self.read:]:
            self.read += 1
            fault = self.hand(message, sender)
            if fault is not None:
                return 'stream %d: %s' % (message.stream, fault)
        return self.wrongly_passed(sender, receiver) or self.lost(sender, receiver)

    def hand(self, message, sender):
        """What is wrong with a message that was handed over just now."""
        ticket = self.by_what.get((message.stream, message.ordered, message.payload_id, message.data))
        if ticket is None or not sender.whole(sender.messages[ticket - 1]):
            return 'what was handed over as %s was never sent there whole' % named(message)
        if ticket in self.handed:
            return 'message %d was handed over twice' % ticket
        self.handed.add(ticket)
        if message.ordered:
            number, earlier = self.last.get(message.stream, (-1, 0))
            if message.number <= number:
                return 'number %d was handed over behind number %d' % (message.number, number)
            if ticket <= earlier:
                return 'message %d was handed over behind message %d' % (ticket, earlier)
            self.last[message.stream] = message.number, ticket
            if message.number != self.sent[ticket].number:
                return 'number %d was handed over as number %d' % (self.sent[ticket].number, message.number)
        return None

    def wrongly_passed(self, sender, receiver):
        """An ordered number that was passed over, and that its sender never abandoned."""
        for stream, bound in enumerate(receiver.next):
            for number in range(self.passed.get(stream, 0), bound):
                ticket = self.ordered.get((stream, number))
                if ticket not in self.handed and not is_abandoned(sender, ticket):
                    return 'stream %d: number %d was passed over, and not abandoned' % (stream, number)
            self.passed[stream] = bound
        return None

    def lost(self, sender, receiver):
        """A message that is acknowledged whole and not abandoned, neither held whole nor handed over."""
        self.open = [ticket for ticket in self.open
                     if ticket not in self.handed and not is_abandoned(sender, ticket)]
        kept = {one.index: one for pieces in receiver.kept.values() for one in pieces}
        for ticket in self.open:
            message = sender.messages[ticket - 1]
            if sender.acknowledged(message) and not is_held(message, sender, kept):
                return 'message %d is acknowledged whole, and lost' % ticket
        return None

    def missing(self, sender):
        """Where an end completed its association each accepted message is handed over or given up: none is left in a queue."""
        for ticket in self.sent:
            message = sender.messages[ticket - 1]
            if ticket not in self.handed and not (message.abandoned or message.withdrawn):
                return 'message %d is missing, and the association completed' % ticket
        return None


def named(message):
    return 'unordered' if not message.ordered else 'number %d' % message.number


def is_abandoned(sender, ticket):
    return ticket is not None and sender.messages[ticket - 1].abandoned


def is_held(message, sender, kept):
    """Each fragment of the message is kept at its index, as one of this lane and number."""
    lane = (message.stream, not message.ordered, message.number)
    return all(index in kept and kept[index].key == lane and kept[index].piece.data == sender.plan[index].data
               for index in message.indexes)


class Promises:
    """Both directions of a pair: A's messages, and B's."""

    def __init__(self):
        self.of = {'A': Direction(), 'B': Direction()}

    def broken(self, ends):
        """The first promise that is broken at these ends, in words, or None."""
        for x, y in ('AB', 'BA'):
            fault = self.of[x].broken(ends[x].sender, ends[y].receiver)
            if fault is None and COMPLETED in (ends[x].ended, ends[y].ended):
                fault = self.of[x].missing(ends[x].sender)
            if fault is not None:
                return 'from %s to %s, %s' % (x, y, fault)
        return None
