#!/usr/bin/env python3
"""Runs random schedules of data channels through `crates/sctp_channel_rows` and through the model, with the law of channels tested along each.

channel_compare.py [--program 'P WORDS'] N [SEED]: each schedule that differs is told, with its first such line, and kept in tests/model/found.
--odd: random messages, DCEP and others, at an open end, a thousand a schedule. --closings: channels that are closed and opened anew at once
(channel_closings.py). --only-model runs no program. --jobs N: so many at once.
--cases FOLDER runs none either, and writes schedules and outputs that are wanted as `rt try --cases` reads them.
"""

import argparse
import os
import subprocess
import sys
from multiprocessing import Pool

from channel_closings import Closings
from channel_law import Broken
from channel_schedules import Odd, Schedule

HERE = os.path.dirname(os.path.abspath(__file__))
BATCH = 120
HEAD = 'Random schedules of data channels.\n'
FOUND = HERE + '/found'


def made(work):
    """A batch: the input, the transcript that is wanted, how many contents were reported, and what breaks the law."""
    maker, seeds = work
    given, wanted, contents, broken = [], [], 0, []
    for seed in seeds:
        schedule = maker(seed)
        try:
            schedule.make()
        except Broken as why:
            broken.append('%d: %s' % (seed, why))
        given.append('\n'.join(['= %d' % seed, *schedule.given]))
        wanted.append('\n'.join(['= %d' % seed, *schedule.lines]))
        contents += schedule.law.contents
    return [HEAD + '\n'.join(part) + '\n' for part in (given, wanted)] + [contents, broken]


def compared(work):
    """A batch, run by the program, too: (lines, contents, what differs or is broken)."""
    program, maker, seeds = work
    given, wanted, contents, broken = made((maker, seeds))
    if program is not None:
        done = subprocess.run(program.split(), input=given.encode(), capture_output=True, check=False)
        found = done.stdout.decode('latin1')
        if found != wanted:
            broken += differences(given, wanted, found)
    return wanted.count('\n'), contents, broken


def differences(given, wanted, found):
    """The first line that differs, of each schedule that does; its lines are kept."""
    said, parts = [], [text.split('\n= ') for text in (given, wanted, found)]
    for at, (calls, ours) in enumerate(zip(*parts[:2])):
        theirs = parts[2][at] if at < len(parts[2]) else '(nothing)'
        if ours.strip('\n') != theirs.strip('\n'):
            lines = list(zip(ours.split('\n'), theirs.split('\n') + [''] * ours.count('\n')))
            first = next((n for n, (one, other) in enumerate(lines) if one != other), len(lines) - 1)
            said.append('%s: line %d: the model %r, the program %r' % (calls.split('\n')[0], first, *lines[first]))
            os.makedirs(FOUND, exist_ok=True)
            with open('%s/channels-%s' % (FOUND, calls.split('\n')[0]), 'w', encoding='latin1') as file:
                file.write(HEAD + '= ' + calls + '\n')
    return said


def main():
    words = argparse.ArgumentParser(description='random schedules of data channels')
    words.add_argument('count', type=int)
    words.add_argument('seed', type=int, nargs='?', default=1)
    words.add_argument('--program', default=HERE + '/../../crates/sctp_channel_rows/out/sctp_channel_rows')
    words.add_argument('--cases')
    words.add_argument('--odd', action='store_true')
    words.add_argument('--closings', action='store_true')
    words.add_argument('--only-model', action='store_true')
    words.add_argument('--jobs', type=int, default=2)
    asked = words.parse_args()
    maker, size = (Odd, 8) if asked.odd else (Closings if asked.closings else Schedule, BATCH)
    seeds = range(asked.seed, asked.seed + asked.count)
    batches = [list(seeds[at:at + size]) for at in range(0, len(seeds), size)]
    lines = contents = 0
    faults = []
    with Pool(asked.jobs) as workers:
        if asked.cases:
            os.makedirs(asked.cases, exist_ok=True)
            for at, (given, wanted, more, broken) in enumerate(workers.imap(made, [(maker, batch) for batch in batches])):
                for name, text in (('%05d' % at, given), ('%05d.stdout' % at, wanted)):
                    with open(asked.cases + '/' + name, 'w', encoding='latin1') as file:
                        file.write(text)
                lines, contents, faults = lines + wanted.count('\n'), contents + more, faults + broken
        else:
            program = None if asked.only_model else asked.program
            for more_lines, more, broken in workers.imap(compared, [(program, maker, batch) for batch in batches]):
                lines, contents, faults = lines + more_lines, contents + more, faults + broken
                print(*broken, sep='\n', end='\n' * bool(broken), flush=True)
    print('%d schedules, %d lines, %d contents reported; %d differ or break the law' % (len(seeds), lines, contents, len(faults)))
    if asked.cases:
        print(*faults, sep='\n')
    return 1 if faults else 0


if __name__ == '__main__':
    sys.exit(main())
