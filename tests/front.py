#!/usr/bin/env python3
"""What docs/RUST.md says of the calls of the Rust crate, compared with the sources (tests/layout.sh): its table names each call of the crate's front
and each public function of crates/sctp_endpoint/src and crates/sctp_channels/src that isn't a law, and no others; the page has the number of these
functions, as README and the crate's documentation have it, and of the laws; and none of them has a `requires`. A law is a function that takes nothing
or `&self`, returns nothing and has a clause. Each fault is printed, and the status is 1."""

import re
import sys
from pathlib import Path

ROOT = Path(__file__).resolve().parent.parent
PAGES = [ROOT / 'docs/RUST.md', ROOT / 'README.md', ROOT / 'rust/sidorghu/src/lib.rs']
PROVED = [ROOT / 'crates/sctp_endpoint/src', ROOT / 'crates/sctp_channels/src']
FRONT = ROOT / 'rust/sidorghu/src'
OF = ('Endpoint', 'Channels')
HEAD = re.compile(r'(?P<margin>(?:    )?)pub fn (?P<name>\w+) ?(?:<[^>]*>)?\((?P<given>.*?)\)(?P<rest>[^{]*)', re.S)
faults = []


def blocks(text):
    """Each `impl` of a source by its type, and what is outside of them as of None."""
    at = 0
    for found in re.finditer(r'^impl(?:<[^>]*>)? (\w+)[^\n]*\{\n(.*?)^\}\n', text, re.S | re.M):
        yield None, text[at:found.start()]
        yield found[1], found[2]
        at = found.end()
    yield None, text[at:]


def proved():
    """The public functions of the proved crates by their names, each with whether it is a law."""
    calls = {}
    for path in sorted(path for folder in PROVED for path in folder.glob('*.rt')):
        for owner, text in blocks(path.read_text(encoding='utf-8')):
            for found in HEAD.finditer(text):
                if found['margin'] and owner not in OF:
                    continue
                name = f"{owner}::{found['name']}" if found['margin'] else found['name']
                if re.search(r'\brequires\b', found['rest']):
                    faults.append(f'{path.relative_to(ROOT)}: {name} has a requires')
                given = found['given'].strip().rstrip(',')
                calls[name] = given in ('', '&self') and '->' not in found['rest']
    return calls


def front():
    """The public calls of the front: those of Endpoint and Channels, and the functions; readers and what hands memory back are for both."""
    calls = set()
    for path in sorted(FRONT.rglob('*.rs')):
        text = path.read_text(encoding='utf-8')
        if path.name in ('readers.rs', 'memory.rs'):
            calls |= {f'{owner}::{found["name"]}' for found in re.finditer(r'^            pub fn (?P<name>\w+)', text, re.M) for owner in OF}
            continue
        for owner, part in blocks(text):
            calls |= {f'{owner}::{it["name"]}' for it in HEAD.finditer(part) if it['margin'] and owner in OF}
            calls |= {it['name'] for it in HEAD.finditer(part) if not it['margin'] and path.name == 'packet.rs'}
    return calls


def table():
    """The names of both columns of the page's table."""
    text = PAGES[0].read_text(encoding='utf-8').partition('<!-- calls -->')[2].partition('\n\n')[0]
    left, right = set(), set()
    for row in text.strip().split('\n')[2:]:
        calls, of = [re.findall(r'`([\w:]+)`', cell) for cell in row.strip('| ').split(' | ')]
        left |= set(calls) - set(OF)
        right |= set(of if not row.endswith('| the same |') else calls) - set(OF)
    return left, right


def same(what, said, there):
    faults.extend(f'docs/RUST.md: {name} is {what}, and the table has no such {"row" if name in there else "call any more"}' for name in sorted(said ^ there))


def main():
    calls, (left, right) = proved(), table()
    laws = {name for name, is_law in calls.items() if is_law}
    readers = {name.replace('Endpoint', 'Channels') for name in left if name.startswith('Endpoint::')}
    same('a call of the front', left | (readers & front()), front())
    same('a public function of the proved crates', right, set(calls) - laws)
    for page, number, what in [(page, len(calls), 'public functions') for page in PAGES] + [(PAGES[0], len(laws), 'of them are laws')]:
        found = re.findall(rf'(\d+)\s+(?://! )?{what}', page.read_text(encoding='utf-8'))
        if set(found) != {str(number)}:
            faults.append(f'{page.relative_to(ROOT)}: in place of "{number} {what}" it has {" and ".join(found) or "none"}')
    print('\n'.join(faults), end='\n' if faults else '')
    return 1 if faults else 0


if __name__ == '__main__':
    sys.exit(main())
