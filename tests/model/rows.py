#!/usr/bin/env python3
"""The transcript that the model gives to cases in the form of crates/sctp_rows.

rows.py [CASES [TRANSCRIPT]]: by default the two files of that crate. What a program says of wrong
words is its own text, and `sctp-look` draws pictures, of which there is no model: both are taken over
from TRANSCRIPT, so that of the cases of `sctp-look` nothing is computed here.
"""

import copy
import os
import re
import sys

import end
import model
import printing

CRATE = os.path.join(os.path.dirname(os.path.abspath(__file__)), '..', '..', 'crates', 'sctp_rows')


class Line:
    """A line of a case: how it stands there, its bytes, how often it comes."""

    def __init__(self, shown, text):
        form, _, rest = text.partition(' ')
        self.shown, self.times, data = shown, 1, rest.encode()
        if form.startswith('*'):
            self.times = int(form[1:])
        elif form.startswith('~'):
            data = data.ljust(int(form[1:]), b'0')
        elif form.startswith('x'):
            data *= int(form[1:])
        self.bytes = data + (b'' if form == '-' else b'\n')

    @staticmethod
    def is_one(text):
        return re.match(r'(>|-|\*\d+|~\d+|x\d+)( |$)', text) is not None


def transcript(start, lines, above):
    """What running these lines shows; nothing for those above. `start` begins a run, given what it writes with."""
    shown, hidden = [], False
    script = start(lambda line: None if hidden else shown.append(line))
    waiting, count = b'', 0
    try:
        for place, line in enumerate(lines):
            if place >= above:
                shown.append(line.shown)
            for turn in range(line.times):
                hidden = place < above or turn + 1 < line.times
                waiting += line.bytes
                if waiting.endswith(b'\n'):
                    count += 1
                    script.line(waiting[:-1], len(waiting))
                    waiting = b''
        if waiting:
            count += 1
            script.line(waiting, len(waiting))
        hidden, count = False, 1
        script.end()
    except model.LineFault as fault:
        return shown + ['! line %d: %d' % (count, fault.args[0]), 'status 2']
    return shown + ['status 0']


def split(text):
    """The remarks above the first case, and (name, words, lines) of each."""
    first, *cases = text.split('\n= ')
    parts = [case.split('\n', 2) + ['', ''] for case in cases]
    return first, [(part[0], part[1], part[2].split('\n')) for part in parts]


def start_of(program, words):
    """What begins a run of this program with these words behind its name, or None where they are no form."""
    if program != 'sctp-end':
        return model.Script if words == ['run'] else None
    endpoint = end.end_of([word.encode() for word in words])
    return None if endpoint is None else lambda write: end.Session(copy.deepcopy(endpoint), write)


def case(words, texts, stored):
    """The lines of a case in the transcript, from its words on; `stored` where no model has them."""
    lines, above, shown = [], None, [words]
    program, *behind = words.split(' ')[1:] if words.startswith('$ ') else ['']
    if program == 'sctp-look':
        return stored
    if program != 'sctp-end' and len(behind) == 2 and behind[0] in ('packet', 'chunks') and not behind[1].startswith('-'):
        said, status = printing.print_bytes(*behind)
        return shown + said + ['status %d' % status]
    start = start_of(program, behind)
    if start is None:
        return stored if stored[-1] == 'status 1' else [words, 'status 1']
    for text in texts:
        bare = text[1:] if text.startswith('/') else text
        if text.startswith('/'):
            if above is None:
                above = len(lines)
                shown += [line.shown for line in lines]
            else:
                shown += transcript(start, lines, above)
                del lines[above:]
        if Line.is_one(bare):
            lines.append(Line(text, bare))
    return shown + transcript(start, lines, above or 0)


def main():
    names = sys.argv[1:] + [os.path.join(CRATE, 'stdin'), os.path.join(CRATE, 'stdout')][len(sys.argv) - 1:]
    texts = []
    for name in names:
        with open(name, encoding='utf-8', newline='') as file:
            texts.append(file.read())
    stored = {}
    for name, words, lines in split(texts[1])[1]:
        while lines and not lines[-1]:
            lines.pop()
        stored.setdefault((name, words), []).append([words] + lines)
    first, cases = split(texts[0])
    print(first)
    for name, words, lines in cases:
        same = stored.get((name, words))
        print('\n'.join(['= ' + name] + case(words, lines, same.pop(0) if same else [words]) + ['']))


if __name__ == '__main__':
    main()
