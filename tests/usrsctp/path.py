"""Paths of packets in virtual time, in microseconds: a delay, perhaps a rate with a drop-tail queue before it, and a loss."""

import collections
import heapq
import struct

ON_THE_WIRE = 28                       # headers of IP and UDP
HEADER, DATA, COOKIE_ACK = 12, 0, 11    # bytes; types of chunks


def chunks(packet):
    """The type of each chunk, and where it begins."""
    at, found = HEADER, []
    while at + 4 <= len(packet):
        length = struct.unpack_from('>H', packet, at + 2)[0]
        found.append((packet[at], at))
        at += (length + 3) & ~3
    return found


class Link:
    """One way, which associations may share."""

    def __init__(self, delay, chance, lost=0, rate=None, queue=None):
        """Milliseconds; a share of the packets; bits a second; packets that wait while another one is sent."""
        self.delay, self.chance, self.lost, self.rate, self.queue = delay * 1_000, chance, lost, rate, queue
        self.begins, self.free = collections.deque(), 0

    def carry(self, packet, now):
        """When it arrives; None if it is dropped or lost."""
        if self.chance.random() < self.lost:
            return None
        if self.rate is None:
            return now + self.delay
        while self.begins and self.begins[0] <= now:
            self.begins.popleft()
        if len(self.begins) >= self.queue:
            return None
        begins = max(now, self.free)
        self.begins.append(begins)
        self.free = begins + (len(packet) + ON_THE_WIRE) * 8_000_000 // self.rate
        return self.free + self.delay


class Side:
    """An endpoint, the link from it, and what is counted of the packets that it sends."""

    def __init__(self, endpoint, link):
        self.endpoint, self.link, self.other, self.is_open = endpoint, link, None, False
        self.highest, self.repeated = None, 0

    def watch(self, packets):
        """Counts packets with data that was sent before."""
        for packet in packets:
            tsns = [struct.unpack_from('>I', packet, at + 4)[0] for kind, at in chunks(packet) if kind == DATA]
            news = [tsn for tsn in tsns if self.highest is None or 0 < (tsn - self.highest) % 2**32 < 2**31]
            self.repeated += len(news) < len(tsns)
            self.highest = news[-1] if news else self.highest


class Network:
    """Associations and their packets under way."""

    def __init__(self):
        self.sides, self.under_way, self.count, self.now = [], [], 0, 0

    def join(self, sender, receiver, out, back):
        """An association; the sender's side."""
        one, other = Side(sender, out), Side(receiver, back)
        one.other, other.other = other, one
        self.sides += [one, other]
        return one

    def go(self, side, packets):
        side.watch(packets)
        for packet in packets:
            arrives = side.link.carry(packet, self.now)
            if arrives is not None:
                self.count += 1
                heapq.heappush(self.under_way, (arrives, self.count, side.other, packet))

    def step(self, until):
        """What comes next: a packet, or the time of a timer. False if nothing does before this time."""
        times = [side.endpoint.next() * 1_000 for side in self.sides if side.endpoint.next() is not None]
        if self.under_way:
            times.append(self.under_way[0][0])
        if not times or min(times) > until:
            return False
        self.now = max(self.now, min(times))
        for side in self.sides:
            moment = side.endpoint.next()
            if moment is not None and moment * 1_000 <= self.now:
                self.go(side, side.endpoint.ring(self.now // 1_000))
        while self.under_way and self.under_way[0][0] <= self.now:
            _, _, side, packet = heapq.heappop(self.under_way)
            self.arrive(side, packet)
        return True

    def arrive(self, side, packet):
        side.is_open = side.is_open or COOKIE_ACK in (kind for kind, _ in chunks(packet))
        self.go(side, side.endpoint.hear(packet, self.now // 1_000))

    def open(self, side):
        """The four packets of the opening, of which none is lost."""
        lost, side.link.lost, side.other.link.lost = (side.link.lost, side.other.link.lost), 0, 0
        self.go(side, side.endpoint.connect(self.now // 1_000))
        while not side.is_open:
            self.step(self.now + 60_000_000)
        side.link.lost, side.other.link.lost = lost

    def close(self):
        for side in self.sides:
            side.endpoint.finish()
