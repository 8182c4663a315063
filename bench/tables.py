#!/usr/bin/env python3
"""The tables of bench/README.md, over an installed library for C: `./run.sh all` calls it.

tables.py PREFIX LABEL [PART ..]: PREFIX has the library and its headers (install.sh), LABEL says how it was built. Without a part each table of the page
is written anew, between its two marks; with parts these are printed alone: messages, time, memory, packets, growth. Instructions are counted by valgrind's
callgrind. The column of usrsctp is counted if USRSCTP_SOURCE names the folder of its sources, else it is what bench/usrsctp.txt keeps.
"""

import os
import pathlib
import re
import resource
import statistics
import subprocess
import sys
import tempfile

HERE = pathlib.Path(__file__).resolve().parent
PAGE, KEPT = HERE / 'README.md', HERE / 'usrsctp.txt'
ROUNDS = 5
# A long copy by `rep movsb` would count as an instruction a byte.
PLAIN_COPIES = {'GLIBC_TUNABLES': 'glibc.cpu.x86_rep_movsb_threshold=1000000000:glibc.cpu.x86_rep_stosb_threshold=1000000000'}
USRSCTP = ('-std=c99 -pthread -O2 -w -D__Userspace__ -DSCTP_PROCESS_LEVEL_LOCKS -DSCTP_SIMPLE_ALLOCATOR -DSCTP_DEBUG -DINET -DINET6 -D_GNU_SOURCE '
           '-DHAVE_STDATOMIC_H -DHAVE_SYS_QUEUE_H -DHAVE_LINUX_IF_ADDR_H -DHAVE_LINUX_RTNETLINK_H -DHAVE_NETINET_IP_ICMP_H').split()
# What a message is: messages a turn, bytes, letters; few turns, many; the aim.
WORK = [('64 bytes, 9.5 to a packet', 19, 64, '', 100, 300, 2_450),
        ('the same as I-DATA', 19, 64, 'i', 100, 300, 2_900),
        ('64 bytes, one to a packet', 1, 64, '', 1_000, 3_000, 4_500),
        ('16 KiB, 12 fragments, less the making of its bytes', 1, 16_384, '', 50, 150, 105_600)]
LAST_OF_MANY = 1_024
BURSTS = [('19 messages at once', 19, 19, 1), ('1,024 at once', 1_024, 1_024, 1), ('a full window, 32,767 at once', 32_767, 32_767, 1),
          ('two of these, one after the other', 65_534, 32_767, 1), ('ten million, 19 at a time', 10_000_000, 19, 1),
          ('1,024 at once in each of 10,000 associations, each', 1_024, 1_024, 10_000)]


class Bench:
    """The programs, built once."""

    def __init__(self, prefix, folder):
        self.prefix, self.folder = prefix, folder

    def program(self, source, memory=True):
        """A program of C over the static library; its memory is malloc's, or its own."""
        built = self.folder / pathlib.Path(source).stem
        if not built.exists():
            libraries = [f'{self.prefix}/lib/libsctp_endpoint.a', *[f'{self.prefix}/lib/libsctp_endpoint_malloc.a'] * memory]
            subprocess.run(['cc', '-O2', f'-I{self.prefix}/include', '-o', built, HERE / source, *libraries], check=True)
        return built

    def usrsctp(self, sources):
        built = self.folder / 'usrsctp'
        below = pathlib.Path(sources) / 'usrsctplib'
        files = [*below.glob('*.c'), *below.glob('netinet/*.c'), *below.glob('netinet6/*.c')]
        subprocess.run(['cc', *USRSCTP, f'-I{below}', '-o', built, HERE / 'usrsctp.c', *files], check=True)
        return built


def count(program, *words, within=None):
    """The instructions of a run, of one function of it if `within` names it."""
    command = ['valgrind', '--tool=callgrind', '--callgrind-out-file=/dev/null', *[f'--toggle-collect={within}'] * (within is not None)]
    ran = subprocess.run([*command, program, *map(str, words)], env=os.environ | PLAIN_COPIES, capture_output=True, text=True)
    found = re.search(r'Collected : (\d+)', ran.stderr)
    if ran.returncode or not found:
        sys.exit(f'{program} {words}: status {ran.returncode}\n{ran.stderr[-500:]}')
    return int(found[1])


def each(program, many, size, few, most, *words):
    """What a message takes: the difference of two runs, so that their beginning and end fall away."""
    return (count(program, many, size, most, *words) - count(program, many, size, few, *words)) / (most - few) / many


def table(head, rows):
    lines = [head, ['---'] * len(head), *rows]
    return ''.join(f'| {" | ".join(map(str, line))} |\n' for line in lines)


def written(number):
    return f'{round(number):,}'


# ---- a message from end to end

def usrsctp_counts(bench):
    """Instructions a message, by usrsctp's sources, or as they were counted last."""
    if 'USRSCTP_SOURCE' in os.environ:
        built = bench.usrsctp(os.environ['USRSCTP_SOURCE'])
        counts = [each(built, many, size, few, most, *letters) for _, many, size, letters, few, most, _ in WORK]
        KEPT.write_text(''.join(f'{name}: {round(found)}\n' for (name, *_), found in zip(WORK, counts)))
    return [int(line.rsplit(': ', 1)[1]) for line in KEPT.read_text().splitlines()]


def messages(bench):
    cost, channels = bench.program('../tests/c/cost.c'), bench.program('../tests/c/channels_cost.c')
    rows = []
    for (name, many, size, letters, few, most, aim), theirs in zip(WORK, usrsctp_counts(bench)):
        def ours(more=''):
            made = each(cost, many, size, few, most, 'b') if size > 1_000 else 0
            return each(cost, many, size, few, most, *[letters + more] * bool(letters + more)) - made
        plain, last, controlled, reset = ours(), ours('l'), ours('c'), ours('r')
        over = [each(channels, many, size, few, most, streams) - plain for streams in (1, LAST_OF_MANY)] if not letters and size < 1_000 else None
        rows.append([name, written(theirs), written(plain), f'{plain / theirs:.2f}', written(aim), written(last), written(controlled), written(reset),
                     ' and '.join(f'+{written(more)}' for more in over) if over else ''])
    return table(['work, instructions a message', 'usrsctp -O2', 'Sidorghu', 'of usrsctp', 'aim', 'on the last of 1,024 streams', 'with congestion control',
                  'with stream reset', 'over a channel, on the last of 1,024'], rows)


def processor_time(program, *words):
    before = resource.getrusage(resource.RUSAGE_CHILDREN)
    subprocess.run([program, *map(str, words)], check=True, stdout=subprocess.DEVNULL)
    after = resource.getrusage(resource.RUSAGE_CHILDREN)
    return after.ru_utime + after.ru_stime - before.ru_utime - before.ru_stime


def time(bench):
    """Nanoseconds a message, the middle of alternating rounds."""
    if 'USRSCTP_SOURCE' not in os.environ:
        return 'Set USRSCTP_SOURCE.\n'
    ours, theirs = bench.program('../tests/c/cost.c'), bench.folder / 'usrsctp'
    theirs = theirs if theirs.exists() else bench.usrsctp(os.environ['USRSCTP_SOURCE'])
    rows = []
    for name, many, size, letters, few, most, _ in WORK:
        few, most, found = few * 40, most * 40 if size < 1_000 else most * 20, {ours: [], theirs: []}
        for _ in range(ROUNDS):
            for program in (ours, theirs):
                spent = processor_time(program, many, size, most, *letters) - processor_time(program, many, size, few, *letters)
                found[program].append(spent * 1e9 / (most - few) / many)
        mine, other = (statistics.median(found[program]) for program in (ours, theirs))
        rows.append([name.replace(', less the making of its bytes', '') + ': time', written(other), written(mine), f'{mine / other:.2f}'])
    return table(['nanoseconds of one processor', 'usrsctp -O2', 'Sidorghu', 'of usrsctp'], rows)


# ---- memory

def held(bench, *words):
    """What kept.c says: bytes after messages, after trim, and before them."""
    ran = subprocess.run([bench.program('../tests/c/kept.c', memory=False), *map(str, words)], check=True, capture_output=True, text=True)
    return [int(word) for word in ran.stdout.split()[:3]]


def memory(bench):
    idle = [held(bench, 19, 19, 1, streams)[2] / 2 for streams in (1, 32, 64, 1_024)]
    rows = [[name, *map(written, held(bench, many, at_once, associations)[:2])] for name, many, at_once, associations in BURSTS]
    said = 'An idle endpoint over a handle holds {} bytes with 1 stream, {} with 32, {} with 64 and {} with 1,024.\n\n'.format(*map(written, idle))
    return said + table(['both endpoints of 64 streams, bytes more than before their first message', 'without `trim`', 'after it'], rows)


# ---- one packet, and growth

def listed(program):
    return [line.split('\t') for line in subprocess.run([program, 'list'], check=True, capture_output=True, text=True).stdout.splitlines()]


def packets(bench):
    rows = []
    for source in ('packets.c', 'channels.c'):
        program = bench.program(source)
        rows += [[what, state, written(count(program, name, 'heard', within='counted'))] for name, what, state in listed(program)]
    return table(['in the packet', 'state', 'instructions'], rows)


def growth(bench):
    program, rows = bench.program('growth.c'), []
    for name, what, of, n, calls in listed(program):
        costs = [count(program, name, int(n) * times, within='counted') / (int(calls) or int(n) * times) for times in (1, 2, 4)]
        rows.append([what, of, written(int(n)), ', '.join(map(written, costs))])
    return table(['call', 'n counts', 'n', 'instructions at n, 2 n, 4 n'], rows)


PARTS = {'messages': messages, 'time': time, 'memory': memory, 'packets': packets, 'growth': growth}


def write_page(label, tables):
    """Each table, with how the library was built, in place of the one before."""
    page = PAGE.read_text(encoding='utf-8')
    for name, text in tables.items():
        begin, end = f'<!-- {name} -->\n', f'<!-- end of {name} -->'
        if page.count(begin) != 1 or page.count(end) != 1:
            sys.exit(f'{PAGE}: the marks of {name} are not there once')
        before, rest = page.split(begin)
        page = f'{before}{begin}{text}{end}{rest.split(end)[1]}'
    page = re.sub(r'(<!-- library -->).*?(<!-- end of library -->)', lambda marks: f'{marks[1]}{label}{marks[2]}', page)
    PAGE.write_text(page, encoding='utf-8')


def main(prefix, label, *wanted):
    for name in wanted:
        if name not in PARTS:
            sys.exit(f'{name}: no part; there are {", ".join(PARTS)}')
    with tempfile.TemporaryDirectory() as folder:
        bench = Bench(prefix, pathlib.Path(folder))
        if wanted:
            print(*[PARTS[name](bench) for name in wanted], sep='\n')
        else:
            write_page(label, {name: part(bench) for name, part in PARTS.items()})


if __name__ == '__main__':
    main(*sys.argv[1:])
