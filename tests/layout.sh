#!/usr/bin/env bash
# How what crosses to C lies in memory, compared between the proved code, the C header and the bindings, which no proof can do: names, order and
# types of fields and parameters, and numbers (tests/layout.py says which), and, if there is a C compiler (CC), sizes and offsets. It needs the
# sources alone and takes a second; it prints each fault and ends with 1 if there is one, else it prints nothing. Before that, whether docs/RUST.md has
# each call of the Rust crate, and none of the proved functions that it passes on requires anything (tests/front.py).

root=$(CDPATH='' cd -- "$(dirname -- "$0")/.." && pwd -P) || exit 3
at=$(mktemp -d) || exit 3
trap 'rm -rf "$at"' EXIT
python3 -B "$root/tests/front.py" || exit 1
python3 -B "$root/tests/layout.py" "$at/layout.c" || exit 1
cc=${CC:-cc}
command -v "$cc" > /dev/null || exit 0
"$cc" -std=c99 -fsyntax-only -I"$root/include" "$at/layout.c"
