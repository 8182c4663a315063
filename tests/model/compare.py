#!/usr/bin/env python3
"""Compares `sctp-trace run` with the model on random scripts, or on given ones.

compare.py [--program P] [--keep FOLDER] [--shrink] [--odd | --edges | --forwards | --words | --limited | --paced | --options | --resets] N [SEED]
compare.py [--program P] [--shrink] FILE ..

--odd takes scripts of odd bytes (odd.py), --edges those with every limit at an edge (edges.py), --forwards
those with abandoned windows (forwards.py), --words those with the words of lines `options` and no such line
(words.py): the model is then one without these lines, --limited those with limits of retransmissions
(limited.py), --paced those of fast retransmit and congestion control too (paced.py), --options those with every
option of each end chosen at random (mixed.py), --resets those in which streams are reset too (resetting.py). What
differs is kept in FOLDER (found/ beside this file); --shrink also writes the smallest script found that still
differs, by leaving out lines.
"""

import argparse
import os
import subprocess
import sys

import edges
import forwards
import limited
import mixed
import model
import odd
import paced
import resetting
import scripts
import words

HERE = os.path.dirname(os.path.abspath(__file__))


def of_model(data, options=True):
    """(output, faults, status) of the model, or of one without lines `options`."""
    out = []
    fault = model.run(data, out.append, options)
    faults = b'' if fault is None else b'line %d: %d\n' % fault
    return ''.join(line + '\n' for line in out).encode(), faults, 2 if fault else 0


def of_program(program, data):
    done = subprocess.run([program, 'run'], input=data, capture_output=True, check=False)
    return done.stdout, done.stderr, done.returncode


def difference(program, data, options=True):
    """The first line that differs as (line number, model, program), or None."""
    ours, theirs = of_model(data, options), of_program(program, data)
    if ours == theirs:
        return None
    pairs = [part[0].split(b'\n') + [part[1], b'status %d' % part[2]] for part in (ours, theirs)]
    for place, (mine, other) in enumerate(zip(*pairs), 1):
        if mine != other:
            return place, mine[:200].decode('latin1'), other[:200].decode('latin1')
    return 0, 'another length', 'another length'


def smaller(program, data, options=True):
    """Leaves out lines while the two still differ without a line fault of the model."""
    lines, step = data.split(b'\n'), 64
    faulty = of_model(data, options)[2]
    while step:
        at = 0
        while at < len(lines):
            less = lines[:at] + lines[at + step:]
            tried = b'\n'.join(less)
            if of_model(tried, options)[2] == faulty and difference(program, tried, options):
                lines = less
            else:
                at += step
        step //= 2
    return b'\n'.join(lines)


KINDS = {'seed': lambda n: scripts.script(n).encode(), 'odd': odd.script, 'edges': edges.script, 'forwards': forwards.script,
         'words': words.script, 'limited': limited.script, 'paced': paced.script, 'options': mixed.script, 'resets': resetting.script}


def cases(asked, kind):
    """(name, script) for each number or file."""
    if asked[0].isdigit():
        count, seed = int(asked[0]), int(asked[1]) if len(asked) > 1 else 1
        for n in range(seed, seed + count):
            yield '%s-%d' % (kind, n), KINDS[kind](n)
    else:
        for name in asked:
            with open(name, 'rb') as file:
                yield os.path.basename(name), file.read()


def main():
    parser = argparse.ArgumentParser()
    parser.add_argument('--program', default=os.path.join(HERE, '..', '..', 'sctp-trace'))
    parser.add_argument('--keep', default=os.path.join(HERE, 'found'))
    parser.add_argument('--shrink', action='store_true')
    parser.set_defaults(kind='seed')
    for kind in ('odd', 'edges', 'forwards', 'words', 'limited', 'paced', 'options', 'resets'):
        parser.add_argument('--' + kind, dest='kind', action='store_const', const=kind)
    parser.add_argument('words', nargs='+')
    asked = parser.parse_args()
    count = lines = differing = 0
    options = asked.kind != 'words'                  # whether the model knows lines `options`
    for name, data in cases(asked.words, asked.kind):
        count += 1
        lines += data.count(b'\n')
        found = difference(asked.program, data, options)
        if found is None:
            continue
        differing += 1
        os.makedirs(asked.keep, exist_ok=True)
        if asked.shrink:
            data = smaller(asked.program, data, options)
            found = difference(asked.program, data, options)
        with open(os.path.join(asked.keep, name), 'wb') as out:
            out.write(data)
        print('%s: line %d of the output: model %r, program %r' % (name, *found), flush=True)
    print('%d scripts, %d lines, %d differ' % (count, lines, differing))
    return 1 if differing else 0


if __name__ == '__main__':
    sys.exit(main())
