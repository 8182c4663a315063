#!/usr/bin/env python3
"""Sows faults in erased files, one at a time, and looks whether same_code.py tells each: `sown_faults.py CHECKOUT ERASED [SEED]`.

A fault is a kind of mistake that an eraser could make. Of each kind some places are drawn from all erased files. It ends with 1 if a fault isn't told.
"""
import random
import re
import sys

import laid_out
import same_code

PLACES = 6
# What is looked for in erased code, and what stands there after the mistake.
KINDS = {
    'an operator is another': (r' <= ', ' < '),
    'a sum is a difference': (r' \+ ', ' - '),
    'a test is turned round': (r'\bif (?=[\w.]+ [<>=])', 'if !'),
    'an assignment is an addition': (r' = (?=\w+;)', ' += '),
    'a statement is left out': (r'(?m)^ {8}[\w.]+\(.*\);\n', ''),
    'a let is left out': (r'(?m)^ {8}let \w+ = .*;\n', ''),
    'a return is left out': (r'(?m)^ +return .*;\n', ''),
    'a number is another': (r'\b([2-9]|[1-9]\d+)\b(?=[;,)])', '1'),
    'a constant is another': (r'(?m)^((?:pub(?:\(crate\))? )?const \w+: \w+ = )[^;]+;', r'\g<1>0;'),
    'a pattern is another': (r'Some\(_\) =>', 'Some(..) =>'),
    'an arm is left out': (r'(?m)^ +[\w:]+(?:\([\w, ]*\))? => [^{]*,\n', ''),
    'two words are exchanged': (r'\((\w+), (\w+)\)', r'(\2, \1)'),
    'a type is another': (r': u32\b', ': u64'),
    'a reference is written through': (r'&mut ', '&'),
    'a derive is left out': (r'derive\(Clone, Copy', 'derive(Clone'),
    'a field is left out': (r'(?m)^    (?:pub(?:\(crate\))? )?\w+: \w+,\n', ''),
    'an import names another': (r'(?m)^use crate::sctp_(\w+)::(\w+);', r'use crate::sctp_\1::\1;'),
    'an import of std is of another place': (r'rattle_std::collections::', 'rattle_std::alloc::'),
    'more can be seen': (r'pub\(crate\) fn', 'pub fn'),
    'a hint is left out': (r'#\[inline\(always\)\]\n', ''),
    'a message of an error is another': (r'(?<==> write!\(f, ")[a-z]', 'Z'),
    'an error converts from another': (r'impl From<(\w+)>', r'impl From<Other\1>'),
    'a string is another': (r'"([a-z]+ )', r'"\1 '),
    'a function is left out': (r'(?m)^(?:pub(?:\(crate\))? )?fn \w+\(.*\n(?: .*\n)+\}\n', ''),
    'a function comes twice': (r'(?m)^((?:pub(?:\(crate\))? )?fn \w+\(.*\n(?: .*\n)+\}\n)', r'\1\1'),
    'a clause is left': (r'(?m)^((?:pub )?fn \w+\(.*\)) \{\n', r'\1 requires { a } {\n'),
    'a slice of C has another length': (r'slice\((\w+), \1_length\)', r'slice(\1, 1)'),
    'an error is passed over': (r'\?;', '.ok();'),
}


def places(files, before):
    """Where the mistake could be made: file and match, comments apart."""
    for at, (_, _, _, text) in enumerate(files):
        for found in re.finditer(before, text):
            line = text[text.rfind('\n', 0, found.start()) + 1:found.start()]
            if '//' not in line and '"' not in line or '"' in before:
                yield at, found


def main(checkout, erased, seed=1):
    draw, untold, sown = random.Random(int(seed)), 0, 0
    files = [(crate, source, made, same_code.read(made)) for crate, source, made in same_code.pairs(checkout, erased)]
    laws = set().union(*(laid_out.laws_of(same_code.read(source)) for _, source, _, _ in files))
    for kind, (before, after) in KINDS.items():
        found = list(places(files, before))
        if not found:
            print(f'{kind}: there is no place for it')
            untold += 1
        for at, place in draw.sample(found, min(PLACES, len(found))):
            crate, source, made, text = files[at]
            wrong = text[:place.start()] + place.expand(after) + text[place.end():]
            if wrong == text:
                continue
            sown += 1
            try:
                told = same_code.difference(same_code.source_words(same_code.read(source), laws), same_code.erased_words(wrong, crate))
            except (laid_out.Layout, IndexError, StopIteration) as fault:
                told = str(fault) or type(fault).__name__
            if not told:
                untold += 1
                print(f'{kind}: {made} at byte {place.start()} isn\'t told: {place.group(0)!r}')
    print(f'{len(KINDS)} kinds of faults, {sown} sown: {untold} untold')
    return 1 if untold else 0


if __name__ == '__main__':
    if len(sys.argv) not in (3, 4):
        sys.exit(__doc__)
    sys.exit(main(*sys.argv[1:]))
