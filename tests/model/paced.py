#!/usr/bin/env python3
"""Random scripts with fast retransmit, congestion control and RTO.Min: `paced.py FOLDER N [SEED]` writes N of them into the folder.

They are made as those of limited.py are, limits of retransmissions too, and an end at least has one of these options in nearly all. The same
seed gives the same scripts.
"""

import sys

import limited
import model
import scripts
import wire
from endpoint import LAST_MOMENT
from limited import runs


class Paced(limited.Limited):
    """A script whose ends have a pace."""

    names = tuple(model.OPTIONS)

    # ---- Lines ----

    def options(self):
        super().options()
        plain, self.random = self.random, self.apart
        while not (self.faulty or any(config.fast_retransmit for config in self.pair.configs.values())) and self.chance(0.97):
            self.differs = True
            words = self.pick((('fast-retransmit',), ('congestion-control',), ('congestion-control',)))
            self.line('options', self.pick(('A', 'both', 'both')), *words, *self.pick(((), ('rto-min', *self.rto_min_words()))))
        self.random = plain
        if not self.faulty and self.chance(0.04):
            self.late()

    def late(self):
        """The time is beside the last one that there is."""
        self.line('at', LAST_MOMENT - self.pick((0, 1, 500, 999, 1000, 1001, 3000, 60000, 70000, 10**6)))

    def rto_min_words(self):
        return (self.pick((0, 0, 1, 50, 100, 200, 999, 1000, 1001, 5000, 60000, 2**32 - 1)),)

    def wrong_options(self, named):
        return self.pick((
            super().wrong_options(named), (named, 'rto-min'), (named, 'rto-min', ''), (named, 'rto-min', 'delay'), (named, 'rto-min', 2**32),
            (named, 'rto-min', '01'), (named, 'rto-min', '-1'), (named, 'rto-min', 1, 2), (named, 'fast-retransmit', 1), (named, 'fast_retransmit'),
            (named, 'congestion-control', ''), (named, 'Congestion-control'), (named, 'rto_min', 5), (named, 'rto-min', 1000, 'rto-min', 'x')))

    # ---- One end that sends ----

    @property
    def more(self):
        return self.flows, self.recovers, self.batches, self.probes

    def flows(self):
        """Much is sent, and acknowledged packet by packet, so that the window is in use."""
        trip, fragment, rounds = self.pick((0, 0, 1, 20)), self.pair.configs[self.x].fragment, self.pick((3, 10, 20, 30))
        size = min(self.pick((5, 10, 20)) * fragment, 60000)
        for _ in range(min(15, -(-rounds * 3 * fragment // size))):
            self.line('send', self.x, 0, self.pick('oou'), 0, self.until(), '61' * size)
        step = max(1, self.pair.configs[self.x].limit // (fragment + 20))
        for _ in range(rounds):
            for _ in range(4):
                if (self.line('build', self.x) or 'quiet').startswith('quiet'):
                    break
            if self.sender is None or self.end(self.x).ended or self.sender.last_sent() == self.sender.cum:
                break
            if trip:
                self.time(self.clock + trip)
            self.sack_packet(min(self.sender.last_sent(), self.sender.cum + step * self.pick((1, 1, 1, 2))))
        if self.chance(0.5):
            self.builds()
            self.loses()


    def fills(self):
        """All packets that go now, and whether something is in flight."""
        for _ in range(70):
            if (self.line('build', self.x) or 'quiet').startswith('quiet'):
                break
        return self.sender is not None and not self.end(self.x).ended and self.sender.last_sent() > self.sender.cum

    def much(self):
        """Enough for some windows waits to be sent."""
        fragment = self.pair.configs[self.x].fragment
        for _ in range(self.pick((1, 2, 4))):
            self.line('send', self.x, 0, self.pick('oou'), 0, self.until(), '61' * min(self.pick((5, 20, 60)) * fragment, 60000))

    def recovers(self):
        """Several are lost, and CUM moves by parts; what goes again is lost too, at times, and new data misses it."""
        self.much()
        if not self.fills():
            return
        sender, count = self.sender, self.sender.last_sent() - self.sender.cum
        lost = sorted({1, *(self.pick(range(1, count + 1)) for _ in range(self.pick((0, 1, 2, 5))))})
        for upto in range(2, count + 1):
            if self.end(self.x).ended or not self.chance(min(1, 12 / count)):
                continue
            arrived = {sender.cum + at for at in range(1, upto + 1) if at not in lost}
            self.sack_packet(sender.cum, *runs(sender.cum, arrived))
            if self.chance(0.6):
                self.line('build', self.x)
        for _ in range(self.pick((1, 3, 6))):
            if self.end(self.x).ended or self.sender.last_sent() <= self.sender.cum:
                return
            index, last = sender.cum + self.pick((0, 1, 1, 2)), sender.last_sent()
            floor = min(index, last)
            self.sack_packet(floor, *([(2, last - floor)] if last > floor + 1 and self.chance(0.7) else []))
            if self.chance(0.8):
                self.fills()

    def batches(self):
        """SACKs of packet after packet, with packets between at times only, as a program has them that polls now and then."""
        self.much()
        for _ in range(self.pick((1, 2, 4))):
            if not self.fills():
                return
            step, last = self.pick((1, 1, 2, 3)), self.sender.last_sent()
            for index in range(self.sender.cum + step, last + 1, step):
                if self.end(self.x).ended:
                    return
                if self.chance(0.9):
                    self.sack_packet(index)
                if self.chance(0.1):
                    self.line('build', self.x)
            if self.chance(0.2):
                self.expires()

    def probes(self):
        """Nothing is in flight, the peer has little space or none, and what goes all the same is lost; then it has space again."""
        sender, fragment = self.sender, self.pair.configs[self.x].fragment
        window = self.pick((0, 0, 1, fragment - 1, fragment, fragment + 1, 2 * fragment))
        self.much()
        for told in (sender.last_sent(), sender.last_sent()):
            self.comes(wire.sack_chunk(sender.tsn(told), window, [], []))
            self.fills()
        for _ in range(self.pick((1, 2, 3))):
            if self.sender is None or self.end(self.x).ended:
                return
            self.expires()
            self.fills()
            if self.chance(0.3):
                self.comes(wire.sack_chunk(sender.tsn(sender.cum), window, [], []))
        if not self.end(self.x).ended:
            self.comes(wire.sack_chunk(sender.tsn(sender.last_sent()), self.pick((window, 65536, 2**32 - 1)), [], []))
            self.fills()


def script(seed):
    return Paced(seed).make().encode()


if __name__ == '__main__':
    sys.exit(scripts.main(script))
