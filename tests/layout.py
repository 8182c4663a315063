#!/usr/bin/env python3
"""What crosses to C, compared (tests/layout.sh): the proved code says it in crates/sctp_c/src, C in include/sctp_endpoint.h and sctp_channels.h, Rust
in bindings/rust/src/raw.rs, Python in bindings/python/sctp_endpoint.py and sctp_channels.py. No proof can compare them.

Names, order and types of the fields of each struct and of the parameters of each call are the same in all four (but for those of the Rust and
Python bindings that these don't use), and so are the numbers: those of src/codes.rs by their constants, those of states, ends, fates, reasons and
events by the definitions that the contracts cite. The crates that SECURITY.md names as sources of the library are those that sctp_c stands on by
crates.txt. Each fault is printed, and the status is 1. With a file's name, a C program is written to it whose
compilation fails unless sizes and offsets are those of the code, by the rules of `repr(C)`."""

import re
import sys
from pathlib import Path

ROOT = Path(__file__).resolve().parent.parent
C = {'u8': 'uint8_t', 'u16': 'uint16_t', 'u32': 'uint32_t', 'u64': 'uint64_t', 'usize': 'size_t', 'bool': 'bool', '*mut u8': 'void *'}
SIZES = {'u8': 1, 'u16': 2, 'u32': 4, 'u64': 8, 'usize': 8, 'bool': 1, '*mut u8': 8}
PYTHON = {'u8': 'c_uint8', 'u16': 'c_uint16', 'u32': 'c_uint32', 'u64': 'c_uint64', 'usize': 'c_size_t', 'bool': 'c_bool', '*mut u8': 'c_void_p'}
STRUCT = re.compile(r'#\[repr\(C\)\]\s*(?:#\[[^\]]*\]\s*)*pub struct (\w+) \{(.*?)\n\}', re.S)
CALL = re.compile(r'#\[unsafe\(no_mangle\)\]\s*pub extern "C" fn (\w+)\((.*?)\)(?: -> (\w+))?\s*(?:\n|\{)', re.S)
TEXTS = {'sctp_endpoint_name', 'sctp_endpoint_version'}  # bytes that are characters in C
SHORTER = {'bytes_length': 'length', 'count': 'length'}  # in a clause `length` is a function: the code's names of such parameters
faults = []


def text(path):
    return (ROOT / path).read_text(encoding='utf-8')


def split(list_of):
    """The parts of a list between commas, but for those in brackets."""
    return [part.strip() for part in re.split(r',(?![^\[]*\])', re.sub(r'//.*', '', list_of)) if part.strip()]


def same(what, one, other):
    if one != other:
        faults.append(f'{what}:\n  {one}\n  {other}')


def c_name(struct):
    """The header's name of a struct: SctpConfig is sctp_endpoint_config, SctpEndpoint sctp_endpoint, SctpChannelEvent sctp_channel_event."""
    words = re.findall('[A-Z][a-z]+', struct.removeprefix('Sctp'))
    return '_'.join(['sctp', *['endpoint'] * (words[0] not in ('Endpoint', 'Channel', 'Channels')), *words]).lower()


# ---- the code

def code():
    """The structs of the code with their fields, and its calls with their parameters: names and types of the code."""
    sources = ''.join(text(path.relative_to(ROOT)) for path in sorted((ROOT / 'crates/sctp_c/src').rglob('*.rt')))
    structs = {}
    for name, body in STRUCT.findall(sources):
        fields = [re.match(r'(?:pub(?:\(crate\))? )?(\w+): (.+)$', field, re.S) for field in split(body) if 'ghost ' not in field]
        structs[name] = [(field[1], field[2]) for field in fields if field[2] != 'Global']
    for name, fields in structs.items():  # a struct inside of another one: its fields
        structs[name] = [inner for field, of in fields for inner in structs.get(of, [(field, of)])]
    del structs['Slot'], structs['ChannelsSlot']
    calls = {name: (parameters(split(given)), result) for name, given, result in CALL.findall(sources)}
    return structs, calls


def parameters(given):
    """A slice is a pointer and a length; an allocator is nothing."""
    made = []
    for parameter in given:
        name, of = re.split(r':\s*', parameter, maxsplit=1)
        if of == 'Global':
            continue
        kind = re.match(r'&(mut )?(?:\[(\w+)\]|(\w+))$', of)
        if not kind:
            made.append((name, of))
        else:
            made.append((name, ('' if kind[1] else 'const ') + (kind[2] or kind[3]) + ' *'))
            made += [(name + '_length', 'usize')] if kind[2] else []
    return [(SHORTER.get(name, name), of) for name, of in made]


def in_c(name, of):
    """A field or parameter as C declares it."""
    array = re.match(r'\[(\w+); (\d+)\]$', of)
    if array:
        return f'{C[array[1]]} {name}[{array[2]}]'
    pointer = re.match(r'(const )?(\w+) \*$', of)
    if pointer:
        return f'{pointer[1] or ""}{C.get(pointer[2]) or "struct " + c_name(pointer[2])} *{name}'
    return f'{C[of]}{"" if C[of].endswith("*") else " "}{name}'


# ---- what is compared with it

def header():
    """The header's structs and calls, a declaration each for a field or parameter."""
    both = text('include/sctp_endpoint.h') + text('include/sctp_channels.h')
    source = re.sub(r'/\*.*?\*/|^#.*?(?<!\\)$', '', both, flags=re.S | re.M)
    structs = {}
    for name, body in re.findall(r'^struct (\w+) \{(.*?)^\};', source, re.S | re.M):
        structs[name] = []
        for line in filter(None, (line.strip() for line in body.split(';'))):
            first, *more = [part.strip() for part in line.split(',')]
            structs[name] += [first] + [re.match(r'(.*?)\w+$', first)[1] + other for other in more]
    calls = {name: ([part.strip() for part in re.sub(r'\s+', ' ', given).split(',') if part.strip() != 'void'], result)
             for result, name, given in re.findall(r'^(\w+) (sctp_(?:endpoint|channels)_\w+)\((.*?)\);', source, re.S | re.M)}
    numbers = {kind: {name: int(number) for name, number in re.findall(rf'SCTP_{kind}_(\w+) = (\d+)', source)} for kind in ('EP', 'CH')}
    return structs, calls, numbers


def compare_header(structs, calls):
    have_structs, have_calls, _ = header()
    have_structs.pop('sctp_endpoint_block')
    same('structs of code and header', sorted(c_name(name) for name in structs), sorted(have_structs))
    same('calls of code and header', sorted(calls), sorted(have_calls))
    for name, fields in structs.items():
        same(f'fields of {c_name(name)}, in code and header', [in_c(*field) for field in fields], have_structs.get(c_name(name)))
    for name, (given, result) in calls.items():
        wanted = ([in_c(*parameter) for parameter in given], C[result] if result else 'void')
        if name in TEXTS:
            wanted = ([re.sub('^uint8_t', 'char', parameter) for parameter in wanted[0]], wanted[1])
        same(f'{name}, in code and header', wanted, have_calls.get(name))


def compare_rust(structs, calls):
    source = text('bindings/rust/src/raw.rs')
    for name, body in STRUCT.findall(source):
        struct = 'SctpEndpoint' if name == 'Handle' else 'Sctp' + name
        fields = [re.match(r'pub (\w+): (.+)$', field) for field in split(body)]
        same(f'fields of {struct}, in code and raw.rs', structs.get(struct), [(field[1], field[2].replace('c_void', 'u8')) for field in fields])
    for name, given, result in re.findall(r'pub fn (\w+)\((.*?)\)(?: -> (\w+))?;', source, re.S):
        have = [re.match(r'(\w+): (?:\*(const|mut) )?(\w+)$', parameter) for parameter in split(given)]
        have = [(part[1], {'const': 'const ', 'mut': '', None: None}[part[2]], part[3].replace('Handle', 'Endpoint')) for part in have]
        code_has = [(part, 'const ' if of.startswith('const ') else '' if of.endswith('*') else None, re.sub(r'const | \*', '', of).replace('Sctp', ''))
                    for part, of in calls[name][0]]
        same(f'{name}, in code and raw.rs', (code_has, calls[name][1]), (have, result))


def compare_python(structs, calls, module):
    source = text(f'bindings/python/{module}.py')
    for name, body in re.findall(r'^class (\w+)\(Structure\):.*?_fields_ = \[(.*?)\]\n', source, re.S | re.M):
        struct = 'SctpEndpoint' if name == '_Handle' else 'Sctp' + name.lstrip('_')
        wanted = []
        for field, of in structs.get(struct, []):
            array = re.match(r'\[(\w+); (\d+)\]$', of)
            wanted.append((('_' if field == 'reserved' else '') + field, f'{PYTHON[array[1]]} * {array[2]}' if array else PYTHON[of]))
        same(f'fields of {struct}, in code and Python', wanted, re.findall(r'\("(\w+)", (c_\w+(?: \* \d+)?)\)', body))
    called = re.search(r'^_calls = \{(.*?)^\}', source, re.S | re.M)[1]
    for name, given in re.findall(r'"(\w+)": \((.*)\),', called):
        count = len([part for part in given.split(', ') if part.strip(' ,')])
        same(f'parameters of {name}, counted in code and Python', len(calls[f'{module}_{name}'][0]), count)


def compare_numbers():
    """Each number of the header is the one of the code, or of the definition that the code's contract cites."""
    _, _, numbers = header()
    wanted = {name: int(number) for name, number in re.findall(r'const (\w+): u32 = (\d+);', text('crates/sctp_c/src/codes.rt'))}
    base = wanted.pop('BAD_CONFIG')
    faults_of = {'WrongPort': 'BAD_PORT', 'WrongLimit': 'BAD_PACKET_LIMIT', 'WrongFragment': 'BAD_FRAGMENT', 'WrongBuffer': 'BAD_BUFFER', 'WrongStreams': 'BAD_STREAMS'}
    meanings = text('crates/sctp_terms/specs/Meanings.antt')
    found = re.findall(r'^config_fault_meaning fault\.\w+ = configured\.(\w+)', meanings, re.M)  # no configuration has the others yet
    for fault, number in re.findall(r'^config_code configured\.(\w+) = (\d+)', meanings, re.M):
        if fault in found:
            wanted[faults_of[fault]] = base + int(number)
    for _, name, number in re.findall(r'^(fate|state|ended)_number \(?(?:\w+\.InStage |Some )?\w+\.(\w+)\)? = (\d+)', text('crates/sctp_c/specs/Codes.antt'), re.M):
        wanted[re.sub(r'(?<!^)(?=[A-Z])', '_', name).upper()] = int(number)
    for name, number in re.findall(r'^(FAULT|PORTS|TAG|STATE|COOKIE) = (\d+)', text('crates/sctp_model/specs/end/PeerFaults.antt'), re.M):
        wanted[name] = int(number)
    wanted.update({'NOT_ENDED': 0, 'NO_REASON': 0})
    same('numbers of the code and of the header', sorted(wanted.items()), sorted(numbers['EP'].items()))
    compare_channel_numbers(numbers['CH'])


def compare_channel_numbers(numbers):
    """The same of channels: reasons, events, reliabilities."""
    codes, events = text('crates/sctp_c/specs/channels/Codes.antt'), text('crates/sctp_c/specs/channels/Events.antt')
    found = re.findall(r'^(?:fault|refusal|ignored)_number \w+\.(\w+) = (\d+)', codes, re.M)
    found += re.findall(r'^told_numbers s \(?(\w+).*plain_event s (\d+)', events, re.M) + re.findall(r'^type_of \(?(\w+).* = (\d+)', text('crates/sctp_dcep/specs/Dcep.antt'), re.M)
    found += [('Incoming', re.search(r'^incoming_numbers s p = record \(plain_event s (\d+)\)', events, re.M)[1]), ('NoReason', 0)]
    names = {'OnClosing': 'Closing', 'OnRefused': 'WasRefused', 'Refuses': 'Refused', 'Ignores': 'Ignored'}
    wanted = {re.sub(r'(?<!^)(?=[A-Z])', '_', names.get(name, name)).upper(): int(number) for name, number in found}
    same('numbers of channels, of the code and of the header', sorted(wanted.items()), sorted(numbers.items()))
    stream = re.search(r'ANY_STREAM: u16 = ([\d_]+);', text('crates/sctp_c/src/channels/crossing.rt'))[1].replace('_', '')
    same('any stream, in code and header', [stream], re.findall(r'^#define SCTP_CH_ANY_STREAM (\d+)', text('include/sctp_channels.h'), re.M))


# ---- the sources of the library

def compare_sources():
    """The crates that SECURITY.md names are sctp_c and all that it stands on; of the toolchain's standard library the page has no names."""
    stands = {name.split()[0]: others.split() for name, _, others in (line.partition(':') for line in text('crates.txt').splitlines()) if others.strip()}
    below = {'sctp_c'}
    while more := {low for name in below for low in stands.get(name, [])} - below:
        below |= more
    section = re.search(r'^## Which sources a C caller reaches$(.*?)(?=^## |\Z)', text('SECURITY.md'), re.S | re.M)[1]
    same('crates of the C library, by crates.txt and in SECURITY.md', sorted(below - {'core', 'std_alloc', 'std_heap'}),
         sorted(set(re.findall(r'`(?:crates/)?(\w+)`', section))))


# ---- sizes and offsets

def checks(structs):
    """A program that compiles if the C compiler lays the structs out as `repr(C)` does."""
    lines = ['#include "sctp_channels.h"', '#define SAME(what, holds) typedef char what[(holds) ? 1 : -1]']
    for name, fields in structs.items():
        place = largest = 0
        for field, of in fields:
            array = re.match(r'\[(\w+); (\d+)\]$', of)
            one = SIZES[array[1] if array else of]
            place += -place % one
            lines.append(f'SAME({c_name(name)}_{field}, offsetof(struct {c_name(name)}, {field}) == {place});')
            place, largest = place + one * int(array[2] if array else 1), max(largest, one)
        lines.append(f'SAME({c_name(name)}_size, sizeof(struct {c_name(name)}) == {place + -place % largest});')
    return '\n'.join(lines) + '\n'


structs, calls = code()
compare_header(structs, calls)
compare_rust(structs, calls)
compare_python(structs, calls, 'sctp_endpoint')
compare_python(structs, calls, 'sctp_channels')
compare_numbers()
compare_sources()
if len(sys.argv) > 1:
    Path(sys.argv[1]).write_text(checks(structs))
for fault in faults:
    print(fault)
sys.exit(bool(faults))
