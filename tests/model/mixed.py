#!/usr/bin/env python3
"""Random scripts with every option chosen at random: `mixed.py FOLDER N [SEED]` writes N of them into the folder.

Each option of a line `options` is chosen at random for both ends, for one, or for each apart: none at all, some or many, in any order. Where there is such
a line, limits of retransmissions are in some scripts and not in others. What happens is as in the scripts of paced.py, some of them with every
limit at an edge. The same seed gives the same scripts.
"""

import sys

import edges
import paced
import scripts

# How often an option is chosen.
SHARES = {b'limit': 0.15, b'fragment': 0.15, b'buffer': 0.1, b'streams': 0.15, b'mode': 0.15, b'delay': 0.35, b'standard-closing': 0.35,
          b'fast-retransmit': 0.35, b'congestion-control': 0.4, b'rto-min': 0.4, b'reset': 0.35}
# The ends that the lines name, one by one.
NAMED = ((), ('both',), ('both',), ('A',), ('B',), ('A', 'B'), ('A', 'B'), ('A', 'B'), ('both', 'A'), ('both', 'B'))


class Mixed(paced.Paced):
    """A script of which each end has the options that were chosen."""

    def __init__(self, seed, share=1):
        super().__init__(seed, share)
        self.limited = self.apart.choice((0, 0.1, 0.5, 1))      # the share of messages with a limit
        if self.apart.random() < 0.15:
            self.limits, self.fragments = edges.Edges.limits, edges.Edges.fragments
            self.buffers, self.streams = edges.Edges.buffers, edges.Edges.streams

    # ---- Lines ----

    def options(self):
        plain, self.random = self.random, self.apart
        for named in self.pick(NAMED):
            if self.chance(0.05):
                self.comment()
            self.differs = True
            self.line('options', *(self.wrong_options(named) if self.chance(0.005) else self.right_options(named)))
            if self.faulty:
                break
        if not self.faulty and self.chance(0.04):
            self.late()
        self.random = plain

    def draw_options(self):
        chosen = [name for name in self.names if self.chance(SHARES[name])] or [self.pick(self.names)]
        self.random.shuffle(chosen)
        return chosen + ([self.pick(chosen)] if self.chance(0.1) else [])

    def until(self):
        if not self.script.has_options or not self.chance(self.limited):
            return scripts.Maker.until(self)
        return super().until()


def script(seed):
    return Mixed(seed).make().encode()


if __name__ == '__main__':
    sys.exit(scripts.main(script))
