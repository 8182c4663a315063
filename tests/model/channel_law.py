"""The law of data channels, beside a run: the contents that are reported on a channel are those that were sent on it since it was opened, each
once, the ordered ones in order; nothing of a channel is reported on the next one of its stream; and before a channel is reported closed all of
a reliable one was reported, unless some of it was ignored (RFC 8831, 6.4 to 6.7)."""

import dcep
from channels import Channels


SHOWN = 16
OTHER = {'A': 'B', 'B': 'A'}


class Broken(Exception):
    """The law doesn't hold; what was reported."""


class Sent:
    """A content that was accepted."""

    def __init__(self, text, data, channel, message):
        self.text, self.data, self.message, self.is_told = text, data, message, False
        self.ordered = channel is not None and channel.ordered
        self.reliable = channel is not None and channel.kind == dcep.RELIABLE

    def owes(self):
        """1 if it is to be reported yet; less if it needn't be."""
        return (self.reliable and not self.is_told) - (self.message.abandoned or self.message.withdrawn)


class Course:
    """What was sent on one channel, in order, and the place behind the last ordered content that was reported."""

    def __init__(self):
        self.sent, self.behind = [], 0

    def missing(self):
        """How many weren't reported that weren't given up: of equal ones it isn't known which was reported."""
        owed = {}
        for one in self.sent:
            owed[one.text, one.data] = owed.get((one.text, one.data), 0) + one.owes()
        return sum(max(count, 0) for count in owed.values())

    def tell(self, text, data):
        """Finds what was sent for a content that is reported."""
        for place, one in enumerate(self.sent):
            if not one.is_told and (one.text, one.data) == (text, data) and (not one.ordered or place >= self.behind):
                one.is_told = True
                if one.ordered:
                    self.behind = place + 1
                return
        raise Broken('%r was not sent, or was reported, or out of order' % data[:SHOWN])


class Law:
    """Watches two ends. The channels of a stream are counted at each side by how often it is free again: a closed channel is reported, an
    opening that was refused or a stream without a channel isn't."""

    def __init__(self, ends):
        self.ends, self.courses, self.channel, self.contents = ends, {}, {}, 0
        self.excused = set()              # channels of which something was ignored
        self.freed = None                 # what an event that isn't reported yet frees
        ends.made, ends.sent, ends.told = self.watch, self.sent, self.told

    def watch(self, side):
        """Notes what is freed at this side: behind an event once that is reported."""
        over = self.ends.ends[side]
        if isinstance(over, Channels):
            leave, next_event = over.leave, over.next_event

            def left(stream):
                leave(stream)
                if self.freed is None:
                    self.free(side, stream)
                else:
                    self.freed.append((side, stream))

            def event():
                self.freed = []
                return next_event()

            over.leave, over.next_event = left, event

    def free(self, side, stream):
        self.channel[side, stream] = self.channel.get((side, stream), 0) + 1

    def count(self, side, stream):
        """Which channel of the stream it is, at an end that counts them."""
        both = all(isinstance(end, Channels) for end in self.ends.ends.values())
        return self.channel.get((side, stream), 0) if both else 0

    def course(self, side, stream, count):
        return self.courses.setdefault((side, stream, count), Course())

    def sent(self, side, stream, text, data, ticket):
        over, message = self.ends.ends[side], self.ends.endpoint(side).sender.messages[ticket - 1]
        channel = over.stream(stream).channel if isinstance(over, Channels) else None
        self.course(side, stream, self.count(side, stream)).sent.append(Sent(text, data, channel, message))

    def told(self, side, event):
        name, stream, *more = event or ('nothing', None)
        if name == 'closed':
            self.closed(side, stream)
        elif name == 'message':
            self.contents += 1
            self.course(OTHER[side], stream, self.count(side, stream)).tell(*more)
        elif name in ('ignored', 'refused'):
            self.excused.add((OTHER[side], stream, self.count(side, stream)))
        for freed in self.freed or ():
            self.free(*freed)
        self.freed = None

    def closed(self, side, stream):
        """While the association lives: all that was sent on a reliable channel was reported before."""
        key = OTHER[side], stream, self.count(side, stream)
        if self.ends.endpoint(side).ended is None and key not in self.excused:
            self.need_all(self.course(*key), stream)

    @staticmethod
    def need_all(course, stream):
        if course.missing():
            raise Broken('%d contents of stream %d were not reported' % (course.missing(), stream))

    def complete(self):
        """Once all is quiet: what was sent on a reliable channel that both sides have was reported."""
        for (side, stream, count), course in self.courses.items():
            here, there = self.ends.ends[side], self.ends.ends[OTHER[side]]
            if not isinstance(here, Channels) or not isinstance(there, Channels) or (side, stream, count) in self.excused:
                continue
            is_current = count == self.count(side, stream) == self.count(OTHER[side], stream)
            ours, theirs = here.stream(stream), there.stream(stream)
            if is_current and ours.may_send() and theirs.may_send():
                self.need_all(course, stream)
