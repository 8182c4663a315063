#!/usr/bin/env python3
"""The parts of tests/quick.sh, and how they are run.

`rt try` runs a program without a proof; with `--cases FOLDER` it is built once and run for each file of the folder, whose output is compared
with the file NAME.stdout beside it. It ends a run after some seconds, and gives at most 1 MiB of output: so the cases of a program with many
of them are cut at their subjects (`== SUBJECT`) into parts, and a part without an answer fails, by its name.
"""

import os
import re
import subprocess
import sys
import tempfile
import time
from concurrent.futures import ThreadPoolExecutor

SECONDS = 500  # a run of `rt try` may take so long; a part takes a minute at most on a machine that does nothing else
LONGEST = 12 * 60  # the whole test; what hasn't begun by then is left to the gate
CASE = '\n= '
SUBJECT = '\n== '
# what a program writes after a case that isn't the last of the stored run, before the line feed that the next one begins with
AFTER = {'sctp_rows': '\n', 'sctp_call_rows': '', 'sctp_channel_rows': '\n'}


def text_of(path):
    with open(path, encoding='utf-8', newline='') as file:
        return file.read()


class Part:
    """One run: its name, its rows (cases), the input and the output that is wanted."""

    def __init__(self, name, rows, given, wanted):
        self.name, self.rows, self.given, self.wanted = name, rows, given, wanted


class Group:
    """Parts of one program that are built together, or the tests of a crate, which have no parts."""

    def __init__(self, crate, parts):
        self.crate, self.parts, self.passed, self.failed, self.said = crate, parts, [], [], ''

    def words(self, folder):
        limits = ['--seconds', str(SECONDS), '--steps', '1000']
        if not self.parts:
            return ['rt', 'try', '--test', '--seconds', str(SECONDS)]
        file = f'crates/{self.crate}/args'
        words = text_of(file).split('\n') if os.path.exists(file) else []
        return ['rt', 'try', *limits, '--cases', folder, '--', *(word for word in words if word)]

    def run(self, ends_by):
        """Runs the parts, and notes which of them passed; True if there was time for it."""
        if time.monotonic() > ends_by:
            return False
        with tempfile.TemporaryDirectory(prefix='quick-') as folder:
            for at, part in enumerate(self.parts):
                for name, text in ((f'{at:03}', part.given), (f'{at:03}.stdout', part.wanted)):
                    with open(f'{folder}/{name}', 'w', encoding='utf-8', newline='') as file:
                        file.write(text)
            ran = subprocess.run(self.words(folder), cwd=f'crates/{self.crate}', stdin=subprocess.DEVNULL,
                                 stdout=subprocess.PIPE, stderr=subprocess.STDOUT, text=True, errors='replace')
        self.said = ran.stdout
        if self.parts:
            self.compare()
        else:
            self.count(ran.returncode)
        return True

    def compare(self):
        answers = dict(re.findall(r'^case=(\d+) run=ended status=\d+ .*output=(\w+)', self.said, re.M))
        for at, part in enumerate(self.parts):
            (self.passed if answers.get(f'{at:03}') == 'expected' else self.failed).append(part.name)

    def count(self, status):
        """The test functions that passed, each by its line."""
        lines = re.findall(r'^test (\S+) \.\.\. (\w+)', self.said, re.M)
        self.passed = [f'{self.crate}: {name}' for name, end in lines if end == 'ok']
        self.failed = [f'{self.crate}: {name}' for name, end in lines if end != 'ok']
        if status and not self.failed or not lines:
            self.failed.append(f'{self.crate}: its tests came to no end')


def subjects(crate, size):
    """The cases of a crate in parts: a part is a subject, or several of its pieces if it has more than `size` bytes of output."""
    head, *cases = text_of(f'crates/{crate}/stdin').split(CASE)
    _, *wanted = text_of(f'crates/{crate}/stdout').split(CASE)
    if len(cases) != len(wanted):
        sys.exit(f'{crate}: {len(cases)} cases, and {len(wanted)} in the stored output')
    subject = f'\n{head}'.rpartition(SUBJECT)[2].split('\n')[0] or crate
    parts, given, answer, piece = [], [], [], 1

    def end(is_last):
        named = subject if piece == 1 else f'{subject} ({piece})'
        parts.append(Part(f'{crate}: {named}', len(given), CASE.join([subject, *given]),
                          CASE.join([subject, *answer]) + ('' if is_last else AFTER[crate])))
        given.clear()
        answer.clear()

    for at, case in enumerate(cases):
        given.append(case)
        answer.append(wanted[at])
        is_last = at + 1 == len(cases)
        if SUBJECT in case:
            end(is_last)
            subject, piece = case.rpartition(SUBJECT)[2].split('\n')[0], 1
        elif is_last or sum(map(len, answer)) > size:
            end(is_last)
            piece += 1
    return parts


def program(crate):
    """The stored run of a program, as one part."""
    given = f'crates/{crate}/stdin'
    wanted = f'crates/{crate}/stdout'
    return Group(crate, [Part(f'{crate}: its stored run', 1, text_of(given) if os.path.exists(given) else '',
                              text_of(wanted) if os.path.exists(wanted) else '')])


def halves(parts):
    """Parts in two groups of about the same work, by the size of their outputs."""
    both = ([], [])
    for part in sorted(parts, key=lambda part: -len(part.wanted)):
        min(both, key=lambda half: sum(len(one.wanted) for one in half)).append(part)
    return both


def groups():
    """All that is run, the longest first."""
    rows = [Group('sctp_rows', half) for half in halves(subjects('sctp_rows', 120_000))]
    programs = [program(crate) for crate in sorted(os.listdir('crates')) if re.fullmatch(r'sctp_\w+_main|sctp_example', crate)]
    return [*rows, Group('sctp_call_rows', subjects('sctp_call_rows', 120_000)),
            Group('sctp_channel_rows', subjects('sctp_channel_rows', 120_000)), Group('sctp_tests', []), Group('sctp_reconfig', []), *programs]


def main(words):
    at_once = int(words[0]) if words else 2
    began = time.monotonic()
    all_of_it = groups()
    with ThreadPoolExecutor(at_once) as workers:
        begun = list(workers.map(lambda group: group.run(began + LONGEST), all_of_it))
    left = [group for group, ran in zip(all_of_it, begun) if not ran]
    for group in all_of_it:
        for name in group.failed:
            print(f'FAILED  {name}')
        if group.failed:
            lines = [line for line in group.said.split('\n') if 'differs from' in line or 'error' in line or 'no-answer' in line]
            print(*(f'        {line[:200]}' for line in lines[:9]), sep='\n')
    rows = sum(part.rows for group in all_of_it for part in group.parts)
    ran = rows - sum(part.rows for group in left for part in group.parts)
    for group in left:
        print(f'left to the gate, for want of time: {group.crate}, {len(group.parts)} parts')
    print(f'{ran} of {rows} rows in {time.monotonic() - began:.0f} seconds; left to the gate: crates/sctp_broken, exit statuses')
    passed, failed = (sum(len(found) for found in each) for each in ([g.passed for g in all_of_it], [g.failed for g in all_of_it]))
    print(f'{passed} passed, {failed} failed')
    return 1 if failed else 0


if __name__ == '__main__':
    sys.exit(main(sys.argv[1:]))
