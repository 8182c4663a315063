#!/usr/bin/env python3
"""How long the built `sctp-trace run` takes over long scripts, each at n, 2 n and 4 n: `speed.py [--program P] [NAME ..]`.

A script whose cost is its length takes twice as long at 2 n. By hand; the names are those of the functions below.
"""

import argparse
import os
import subprocess
import sys
import tempfile
import time

HERE = os.path.dirname(os.path.abspath(__file__))
OPEN = 'pair 1500 1400 16777216 %d %s\nopen\n'


def singly(n, mode='data'):
    """n messages, each in a packet of its own, acknowledged and taken: 6 lines each."""
    yield OPEN % (1, mode)
    for k in range(1, n + 1):
        yield ('send A 0 o 0 - 61626364\nbuild A\ndeliver A %d\nbuild B\ndeliver B %d\ntake B 0\n' % (k, k))


def bundled(n, mode='data', streams=1):
    """n messages of 8 bytes, 50 to a packet, acknowledged and taken."""
    yield OPEN % (streams, mode)
    for k in range(1, n // 50 + 1):
        yield from ('send A %d o 0 - 6162636465666768\n' % (place % streams) for place in range(50))
        yield 'build A\ndeliver A %d\nbuild B\ndeliver B %d\n' % (k, k)
        yield from ('take B %d\n' % (place % streams) for place in range(50))


def interleaved(n):
    """The same as I-DATA on 32 streams."""
    return bundled(n, 'idata', 32)


def waiting(n):
    """n messages that nobody takes: the report tells of each."""
    yield OPEN % (1, 'data')
    for k in range(1, n + 1):
        yield 'send A 0 o 0 - 61\nbuild A\ndeliver A %d\nbuild B\ndeliver B %d\n' % (k, k)


def unacknowledged(n):
    """n messages that nobody acknowledges, at most 32,767."""
    yield OPEN % (1, 'data')
    for _ in range(n // 50):
        yield 'send A 0 o 0 - 61\n' * 50 + 'build A\n'


def unordered(n):
    """n unordered messages, taken."""
    yield OPEN % (1, 'data')
    for k in range(1, n + 1):
        yield 'send A 0 u 0 - 61\nbuild A\ndeliver A %d\nbuild B\ndeliver B %d\ntake B 0\n' % (k, k)


def moments(n):
    """n messages that are acknowledged, none worthless ever, and then n moments."""
    yield from singly(n)
    for moment in range(n):
        yield 'at %d\n' % moment


def moments_between(n):
    """n messages that are worthless a day on, with a moment behind each: nothing is late."""
    yield OPEN % (1, 'data-pr')
    for k in range(1, n + 1):
        yield ('send A 0 o 0 86400000 61\nbuild A\ndeliver A %d\nbuild B\ndeliver B %d\nat %d\n' % (k, k, k))


def late_one_by_one(n):
    """n messages, each of which goes out, is late a moment after and is passed over."""
    yield OPEN % (1, 'data-pr')
    for k in range(1, n + 1):
        yield 'send A 0 o 0 %d 61\nbuild A\nat %d\nbuild A\n' % (k, k)
        yield 'deliver A %d\nbuild B\ndeliver B %d\n' % (2 * k, k)


def late_at_once(n):
    """n messages that went out and are late at one moment, at most 32,767."""
    yield OPEN % (1, 'data-pr')
    for _ in range(n // 50):
        yield 'send A 0 o 0 1000 61\n' * 50 + 'build A\n'
    yield 'at 1000\nbuild A\n'


def withdrawn(n):
    """n messages, of which each is late before it goes out."""
    yield OPEN % (1, 'data')
    for k in range(1, n + 1):
        yield 'send A 0 o 0 %d 61\nat %d\n' % (k, k)


def abandoned(n):
    """n messages that go out, each of which is then abandoned, at most 32,767."""
    yield OPEN % (1, 'data-pr')
    for _ in range(n // 50):
        yield 'send A 0 o 0 - 61\n' * 50 + 'build A\n'
    for k in range(1, n + 1):
        yield 'abandon A %d\n' % k


def repeated(n):
    """One packet, n times."""
    yield OPEN % (1, 'data') + 'send A 0 o 0 - 61\nbuild A\n'
    yield from ('deliver A 1\n' for _ in range(n))


def comments(n):
    """n lines that do nothing."""
    yield OPEN % (1, 'data')
    yield from ('# nothing\n' for _ in range(n))


SIZES = {
    singly: 34000, bundled: 80000, interleaved: 80000, waiting: 34000, unacknowledged: 8000, unordered: 34000,
    moments: 34000, moments_between: 34000, late_one_by_one: 8000, late_at_once: 8000, withdrawn: 5000, abandoned: 8000,
    repeated: 200000, comments: 200000,
}


def peak(process):
    """The most megabytes that a running process has had so far."""
    try:
        with open('/proc/%d/status' % process, encoding='ascii') as told:
            return max([int(line.split()[1]) / 1024 for line in told if line.startswith('VmHWM')], default=0)
    except (FileNotFoundError, ProcessLookupError):
        return 0


def run(program, script):
    """(lines, seconds of processor, megabytes, bytes written, status) of a script."""
    with tempfile.TemporaryFile() as told, tempfile.TemporaryFile() as said:
        text = ''.join(script).encode()
        told.write(text)
        told.seek(0)
        child = subprocess.Popen([program, 'run'], stdin=told, stdout=said)
        megabytes, ended = 0, 0
        while not ended:
            megabytes = max(megabytes, peak(child.pid))
            time.sleep(0.001)
            ended, status, used = os.wait4(child.pid, os.WNOHANG)
        child.returncode = os.waitstatus_to_exitcode(status)
        said.seek(0, os.SEEK_END)
        return text.count(b'\n'), used.ru_utime + used.ru_stime, megabytes, said.tell(), child.returncode


def main():
    parser = argparse.ArgumentParser()
    built = os.path.join(HERE, '..', 'crates', 'sctp_trace_main', 'out', 'sctp_trace_main')
    parser.add_argument('--program', default=built)
    parser.add_argument('names', nargs='*')
    asked = parser.parse_args()
    for script, size in SIZES.items():
        if asked.names and script.__name__ not in asked.names:
            continue
        for n in (size, 2 * size, 4 * size):
            lines, used, megabytes, written, status = run(asked.program, script(n))
            print('%-16s n %6d  lines %7d  written %8d  seconds %7.2f  MB %6.1f  status %d'
                  % (script.__name__, n, lines, written, used, megabytes, status), flush=True)


if __name__ == '__main__':
    sys.exit(main())
