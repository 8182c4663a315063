#!/usr/bin/env bash
# The first test to run: the sources as they are, unproved, against the stored outputs: the rows of sctp-trace, sctp-end and sctp-look, the rows
# of single calls, the examples, the tests of readers, writers, lists and refused memory, and a run of each program. It needs `rt` and takes
# some six minutes on two processors; twelve at most.
#   tests/quick.sh          all of it, two commands at a time
#   tests/quick.sh 4        four at a time
# It prints a line for each part that fails, how many rows it ran of how many, and at last `N passed, N failed`; the status is 1 if one failed.
# What it leaves to the gate (`rt ci`): the proofs, the mutants, crates/sctp_broken and the programs that end with another status than 0. tests/quick.py has the parts.

root=$(CDPATH='' cd -- "$(dirname -- "$0")/.." && pwd -P) || exit 3
cd -- "$root" || exit 3
exec python3 -B tests/quick.py "$@"
