#!/usr/bin/env python3
"""Trials of the library with the Linux kernel's SCTP as the peer: run.py PROGRAM MODULES SOCKET ROOM [--list] [--packets FOLDER] [--repeat N]
[--patience N] [WORD ..].

PROGRAM is linux.uml, MODULES a folder with its modules, SOCKET the built socket.c, ROOM an empty folder. Each trial is a line: `good`; `Linux`, if
the fault of Linux's that is named was seen; or `WRONG`, with what is. Those alone are made whose names have one of the words. Status 0: none is
wrong; 1: some are; 3: the kernel doesn't boot, or ends."""

import argparse
import collections
import os
import re
import signal
import sys
import traceback

import whole, weak, resets, ends, windows  # noqa: E401, F401, for their trials, in this order
from association import Wrong, clock
from kernel import Kernel, initramfs
from trial import TRIALS


def make(one, kernel):
    """(`good`, `Linux` or `WRONG`, what is printed)"""
    try:
        said = one.run(kernel)
        return ('Linux', '%s: %s' % (one.fault, said)) if one.fault else ('good', said)
    except Wrong as wrong:
        found = [fault for fault in one.excused if kernel.faults and kernel.faults.found[fault]]
        return ('Linux', '%s: %s' % (found[0], wrong)) if found else ('WRONG', str(wrong))
    except Exception:
        return 'WRONG', traceback.format_exc()[-600:]


def run(asked, kernel, chosen):
    counts = collections.Counter()
    for one in chosen:
        for turn in range(asked.repeat):
            if asked.packets:
                kernel.log = open(os.path.join(asked.packets, '%s-%d' % (re.sub(r'\W+', '-', one.name), turn)), 'w')
            began = clock()
            judged, said = make(one, kernel)
            counts[judged] += 1
            print('%-5s | %s | %.1f s | %s' % (judged, one.name, clock() - began, said), flush=True)
            if kernel.process.poll() is not None:
                print('the kernel ended')
                return 3
            kernel.answer('abort')
            if kernel.log:
                kernel.log.close()
                kernel.log = None
    print('%d good, %d with a fault of Linux\' that was seen, %d wrong' % (counts['good'], counts['Linux'], counts['WRONG']))
    return int(counts['WRONG'] > 0)


def main():
    parser = argparse.ArgumentParser()
    for name in ('program', 'modules', 'socket', 'room'):
        parser.add_argument(name)
    parser.add_argument('words', nargs='*')
    parser.add_argument('--list', action='store_true')
    parser.add_argument('--packets')
    parser.add_argument('--repeat', type=int, default=1)
    parser.add_argument('--patience', type=float, default=1)
    asked = parser.parse_intermixed_args()
    chosen = [one for one in TRIALS if not asked.words or any(word in one.name for word in asked.words)]
    if asked.list:
        print('\n'.join(one.name + (' (%s)' % one.fault if one.fault else '') for one in chosen))
        return 0
    signal.signal(signal.SIGTERM, lambda *_: sys.exit(1))        # so that the kernel is powered off
    files = os.path.join(asked.room, 'initramfs.gz')
    initramfs(asked.socket, asked.modules, files)
    kernel = Kernel(asked.program, files, asked.room)
    if not kernel.is_up():
        print('the kernel doesn\'t boot: %s' % ' '.join(kernel.lines), file=sys.stderr)
        kernel.close()
        return 3
    kernel.patience = asked.patience
    print('Linux %s, up after %.1f s' % (os.path.basename(asked.modules.rstrip('/')), kernel.booted), flush=True)
    try:
        return run(asked, kernel, chosen)
    finally:
        kernel.close()


sys.exit(main())
