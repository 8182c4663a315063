#!/usr/bin/env bash
# Looks up in the tree what the pages name: each name, path and command in backticks, and each block of Rust. Prints each fault as
# `FILE:LINE: what` and ends with 1 if there is one, else with 0. It takes some seconds:
#   tests/names.sh               all pages, the figures of tests/figures.txt, and the words of tests/words.txt in pages, header and public comments
#   tests/names.sh README.md ..  these alone
#   tests/names.sh --words       these words alone
#   tests/names.sh --figures     writes the figures that pages have from others over, from the page that owns each
# tests/names.py has the rules.

root=$(CDPATH='' cd -- "$(dirname -- "$0")/.." && pwd -P) || exit 3
cd -- "$root" || exit 3
# The programs that the gate runs to another exit status than 0 have the `main` of those that are installed.
for program in trace end look; do
    cmp -- crates/sctp_${program}_main/src/main.rt crates/sctp_${program}_fault/src/main.rt || exit 1
done
exec python3 -B tests/names.py "$@"
