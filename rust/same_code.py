#!/usr/bin/env python3
"""Looks a second time at what the eraser wrote: `same_code.py CHECKOUT ERASED`, after `sidorghu-erase CHECKOUT ERASED`.

It shares no rule with the eraser, and goes the other way round. The eraser matches braces; this reads the layout of the sources: proof stands in lines
of its own, and goes on as long as lines are further in. Of each source the lines of proof are left out; of each erased file what the table put in is
taken out again. Then both are the same words, file by file, or the first word that differs is told and the status is 1. Only comments and white space
don't count. What a source isn't laid out for (a clause behind code in one line, say) is told too. It counts what it compared; no number is given to it.
"""
import collections
import os
import re
import sys

from laid_out import Layout, laws_of, lines_of, without_proof

WORD = re.compile(r'b?"(?:\\.|[^"\\])*"|b?\'(?:\\(?:x..|u\{[^}]*\}|.)|[^\'\\])\'|\'?[^\W\d]\w*|\d\w*|//[^\n]*|\S', re.S)
LIBRARIES = 'byteorder|arrayvec|sha2|hex|itoa|clap|anyhow'
Words = collections.namedtuple('Words', 'code errors froms')


def leaves(words):
    """The paths of an import, one by one."""
    def tree(at, path, into):
        while True:
            part = path
            while words[at] not in ('{', ',', '}', ';'):
                part, at = part + ' ' + words[at], at + 1
            if words[at] == '{':
                at = tree(at + 1, part, into) + 1
            elif part != path:
                into.append(part.strip())
            if words[at] in ('}', ';'):
                return at
            at += 1
    found = []
    return found, tree(0, '', found)


def flat(words, drop):
    """The words with each import taken apart, without the paths that `drop` says."""
    out, at = [], 0
    while at < len(words):
        if words[at] == 'use':
            seen = ['use']
            while out and out[-1] in ('pub', '(', 'crate', 'super', ')') and (out[-1] != ')' or out[-2] in ('crate', 'super')):
                seen.insert(0, out.pop())
            paths, length = leaves(words[at + 1:])
            for path in paths:
                out += [] if drop(path) else [*seen, path, ';']
            at += length + 2
        else:
            out.append(words[at])
            at += 1
    return out


def words_of(text):
    text = text.replace('\0', '\\\n').replace('\1', ' ').replace('\2', '')
    return [it for it in WORD.findall(text) if not it.startswith('//')]


def closing(words, at):
    depth = 0
    for place in range(at, len(words)):
        depth += (words[place] in '([{') - (words[place] in ')]}')
        if depth == 0:
            return place
    raise Layout('a bracket has no end')


def marked(words):
    """The words without thiserror's attributes and without `Drop`; with the messages and the sources of conversions that the attributes say."""
    out, errors, froms, at = [], [], [], 0
    while at < len(words):
        if words[at:at + 2] == ['#', '['] and words[at + 2] in ('error', 'from'):
            end = closing(words, at + 1)
            if words[at + 2] == 'from':
                froms.append(''.join(words[end + 1:words.index(')', end)]).rstrip(','))
            else:
                name = next(place for place in range(end + 1, len(words)) if words[place] not in ('pub', 'struct', '#', '[', ']') and words[place - 1] != '#')
                errors.append((words[name], ''.join(words[at + 4:end - 1])))
            at = end + 1
        elif words[at:at + 3] == ['#', '[', 'derive']:
            end = closing(words, at + 1)
            names = [it for it in words[at + 4:end - 1] if it not in (',', 'Drop', 'Error')]
            out += ['derive', *names] if names else []
            at = end + 1
        else:
            out.append(words[at])
            at += 1
    return out, errors, froms


def for_c(words):
    """The heads of functions for C as C has them, and what their bodies begin with."""
    at = 0
    while True:
        at = next((it for it in range(at, len(words)) if words[it:it + 3] == ['extern', '"C"', 'fn']), None)
        if at is None:
            return words
        end = closing(words, at + 4)
        head, first = ' ' + ' '.join(words[at + 5:end]) + ' ', ''
        for name, kind, of, item in re.findall(r' (\w+) : (?:(Global)|& ((?:mut )?)\[ (\w+) \])(?= |$)', head):
            mut = of.strip()
            first += f'let {name} = Global ; ' if kind else f'let {name} = unsafe {{ ffi::slice{"_mut" * bool(mut)} ( {name} , {name}_length ) }} ; '
        head = re.sub(r' \w+ : Global(?: ,)?', '', head)
        head = re.sub(r' (\w+) : & mut \[ (\w+) \]', r' \1 : * mut \2 , \1_length : usize', head)
        head = re.sub(r' (\w+) : & \[ (\w+) \]', r' \1 : * const \2 , \1_length : usize', head)
        body = words.index('{', end)
        words = [*words[:at + 5], *head.split(), *words[end:body + 1], *first.split(), *words[body + 1:]]
        at += 5


def source_words(text, laws):
    """What a source says but for its proof."""
    words, errors, froms = marked(words_of(without_proof(text, laws)))
    left = [it for it in words if it in ('ghost', 'requires', 'ensures', 'tactic') or ord(it[0]) > 127]
    if left:
        raise Layout(f'proof that is laid out in another way: {left[0]}')
    drop = lambda path: path in ('std : : marker : : Model', 'thiserror : : Error') or path.split(' ')[-1] in laws
    said = ' '.join(flat(for_c(words), drop))
    for before, after in ((r' \+ Drop\b', ''), (r': Drop \+', ':'), (r' where [\w :]+ : Drop ,', ''), (r' : Drop\b', ''),
                          (r'(# \[ test \] fn \w+ \() rt : HostRuntime \)', r'\1 )'),
                          (r'fn fmt < W : fmt : : Write > \( & self , f : & mut fmt : : Formatter < W > \)', "fn fmt ( & self , f : & mut fmt : : Formatter < '_ > )")):
        said = re.sub(before, after, said)
    return Words(said.split(' '), errors, froms)


def derived(text):
    """The text without what thiserror's derive would make, and what that says."""
    errors, froms = [], []

    def shown(found):
        for line in found.group(2).splitlines():
            arm = re.fullmatch(r' {12}(?:\w+::)?(\w+)(?:\(.*\)| \{.*\})? => (?:write!\(f, (".*")\)|core::fmt::Display::fmt\(_0, f\)),', line)
            errors.append((arm.group(1), re.sub(r'\{_(\d)', r'{\1', arm.group(2) or 'transparent')) if arm else ('?', line))
        return ''

    def made(found):
        froms.append(found.group(1).replace(' ', ''))
        return ''

    text = re.sub(r"impl core::fmt::Display for (\w+) \{\n    fn fmt\(&self, f: &mut core::fmt::Formatter<'_>\) -> core::fmt::Result \{\n"
                  r'        match self \{\n(.*?)        \}\n    \}\n\}\n+impl core::error::Error for \1 \{\}\n', shown, text, flags=re.S)
    text = re.sub(r'impl From<(.*)> for (\w+) \{\n    fn from\(inner: \1\) -> \2 \{\n        \2::\w+\(inner\)\n    \}\n\}\n', made, text)
    return text, errors, froms


def erased_words(text, crate):
    """What an erased file says, with what the table put in taken out."""
    text, errors, froms = derived(text)
    text = '\n'.join(lines_of(text)).replace('use crate::rattle_std::prelude::*;', '').replace('\n    let rt = HostRuntime;', '')
    for before, after in ((r'crate::rattle_std::(\w+!)', r'\1'), (r'crate::rattle_std::ffi::(\w+)', r'ffi\3\3\1'), (r'crate::rattle_std::', 'std::'),
                          (rf'crate::({LIBRARIES})::', r'\1::'), (rf'crate::{crate}::', 'crate::'), (r'crate::(sctp_\w+)::', r'\1::'),
                          (r'\.collect_in\(', '.collect('), (r'(?m)^pub\(crate\) fn main\(rt: HostRuntime\)', 'fn main(rt: HostRuntime)')):
        text = re.sub(before, after.replace(r'\3', '\4'), text)
    words, _, _ = marked(words_of(text))
    said = ' '.join(flat(words, lambda path: False)).replace('ffi \4 \4 ', 'ffi::')
    return Words(said.split(' '), errors, froms)


def difference(before, after):
    """The first word that differs, in words; None if none does."""
    if before.errors != after.errors:
        return f'messages of errors: {before.errors} | {after.errors}'
    if sorted(before.froms) != sorted(after.froms):
        return f'conversions of errors: {before.froms} | {after.froms}'
    one, other = before.code, after.code
    if one == other:
        return None
    at = next((at for at, (a, b) in enumerate(zip(one, other)) if a != b), min(len(one), len(other)))
    return f'{" ".join(one[max(0, at - 6):at + 8])} | {" ".join(other[max(0, at - 6):at + 8])}'


def read(path):
    with open(path, encoding='utf-8') as file:
        return file.read()


def files(folder, end):
    return sorted(os.path.relpath(os.path.join(place, it), folder)[:-len(end)] for place, _, names in os.walk(folder) for it in names if it.endswith(end))


def pairs(checkout, erased):
    """Each source and its erased file: crate, paths; what has no partner is told."""
    for crate in sorted(os.listdir(f'{checkout}/crates')):
        source, made = f'{checkout}/crates/{crate}/src', f'{erased}/{crate}'
        names = files(source, '.rt')
        goals = {'mod' if it in ('lib', 'main') else it: it for it in names}
        for other in sorted(set(files(made, '.rs')) ^ set(goals)):
            print(f'{crate}: {other} is on one side alone')
        yield from ((crate, f'{source}/{it}.rt', f'{made}/{goal}.rs') for goal, it in sorted(goals.items()))
        if set(files(made, '.rs')) != set(goals):
            yield crate, None, None


def main(checkout, erased):
    counts, told = collections.Counter(), 0
    found = list(pairs(checkout, erased))
    laws = set().union(*(laws_of(read(source)) for _, source, _ in found if source))
    for crate, source, made in found:
        if source is None:
            told += 1
            continue
        try:
            before, after = source_words(read(source), laws), erased_words(read(made), crate)
            said = difference(before, after)
        except (Layout, OSError, IndexError, StopIteration) as fault:
            said, before = f'{type(fault).__name__}: {fault}', Words([], [], [])
        counts += collections.Counter(files=1, words=len(before.code), functions=before.code.count('fn'), messages=len(before.errors))
        if said:
            told += 1
            print(f'{os.path.relpath(source, checkout)}: {said}')
    print(f'{counts["files"]} files, {counts["functions"]} functions, {counts["words"]} words and {counts["messages"]} messages of errors compared, '
          f'{len(laws)} laws left out: {told} files differ')
    return 1 if told or not counts['functions'] else 0


if __name__ == '__main__':
    if len(sys.argv) != 3:
        sys.exit(__doc__)
    sys.exit(main(*sys.argv[1:]))
