"""What a message takes, by what runs and not by what calls it: groups.py NAME MESSAGES FEW MANY prints a line for each group, instructions
a message, from two files of callgrind's of which the second ran so many messages more."""

import re
import sys
from collections import Counter

GROUPS = [
    ("allocator", r"malloc|calloc|realloc|free|_int_|unlink_chunk|sysmalloc|alloc::|rust_alloc"),
    ("bytes copied and cleared", r"mem(cpy|move|set|cmp)"),
    ("checksum, `read_packet`, `finish`", r"sctp_packet::"),
    ("sender", r"sctp_send::"),
    ("receiver", r"sctp_recv::|sctp_chains::|sctp_sequence::"),
    ("chunks read", r"sctp_wire::.*(read|next|chunks|Chunks|parse|tree)"),
    ("chunks written", r"sctp_wire::|sctp_framing::"),
]
REST = "an end's own: states, tags, timers, what is due"


def group(name):
    for title, words in GROUPS:
        if re.search(words, name):
            return title
    return REST


def own_costs(path):
    """Self instructions of each function in a callgrind file."""
    names, costs, here, called = {}, Counter(), "", False
    for line in open(path, encoding="utf-8", errors="replace"):
        line = line.rstrip("\n")
        found = re.match(r"fn=\((\d+)\)(?: (.*))?$", line)
        if found:
            number, name = found.groups()
            if name:
                names[number] = name
            here = names[number]
        elif (found := re.match(r"cfn=\((\d+)\)(?: (.*))?$", line)) and found.group(2):
            names[found.group(1)] = found.group(2)
        elif line.startswith("calls="):
            called = True
        elif re.match(r"[+*\-\d]", line):
            if not called:
                costs[here] += int(line.split()[1])
            called = False
    return costs


def main():
    title, messages, few, many = sys.argv[1], int(sys.argv[2]), sys.argv[3], sys.argv[4]
    less, more = own_costs(few), own_costs(many)
    sums = Counter()
    for name in more:
        sums[group(name)] += more[name] - less[name]
    for name in [g[0] for g in GROUPS] + [REST]:
        print(f"{title}, {name}: {sums[name] / messages:.0f} instructions")


main()
