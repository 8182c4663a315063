#!/bin/sh
# Refuses memory to built programs, one growth after the other, until a run meets none; has each read and write fail; has each one of
# several bytes move a single one. To be run by hand:
#   tests/refused-memory.sh            all of it (a minute once the programs are built, which takes far longer)
#   tests/refused-memory.sh wire ..    these runs of tests/starved alone
#   tests/refused-memory.sh programs   sctp-trace and sctp-end alone
#   tests/refused-memory.sh --cargo .. the same of what cargo builds of the erased sources: Rust's own start, before a program's first read or write,
#                                      ends it by a signal if memory is refused, and is told apart
# The program of tests/starved must print tests/starved/stdout where nothing is refused, and the same whichever growth is refused: at each call
# that answers NoMemory it compares what readers tell with what the contract says is left, makes the call again, and prints what isn't as it
# should be. Each line of a run says how often each call was refused.
# sctp-trace and sctp-end must give their whole output, or a beginning of it and status 3. It ends with 0 where all is so.
# It needs a C compiler and Python, and glibc: memory is refused by a library that is loaded before the program
# (tests/refused-memory/refuse.c).

root=$(CDPATH='' cd -- "$(dirname -- "$0")/.." && pwd -P) || exit 3
room=$(mktemp -d) || exit 3
trap 'rm -rf -- "$room"' EXIT
trap 'exit 130' HUP INT TERM
by_cargo() {
    export CARGO_TARGET_DIR="${CARGO_TARGET_DIR:-$room/target}"
    python3 -B "$root/tests/build.py" --cargo starved "$room/starved" || exit 1
    (cd -- "$root/rust" && cargo build --quiet --offline --locked --release -p sidorghu-programs --bin sctp-trace --bin sctp-end) || exit 1
    export CARGO_PROGRAMS="$CARGO_TARGET_DIR/release"
}

by_the_toolchain() {
    python3 "$root/tests/build.py" starved "$room/starved" || exit 1
    for crate in sctp_trace_main sctp_end_main; do
        # It proves and builds the program, unless it is built; what it prints then is looked at below.
        (cd -- "$root/crates/$crate" && rt run </dev/null >"$room/built" 2>&1)
        [ -x "$root/crates/$crate/out/$crate" ] || { tail -n 9 -- "$room/built"; exit 1; }
    done
}

if [ "${1:-}" = --cargo ]; then
    shift
    by_cargo
else
    by_the_toolchain
fi
"$room/starved" >"$room/said" && cmp -- "$root/tests/starved/stdout" "$room/said" || exit 1
cc -O1 -shared -fPIC -o "$room/refuse.so" "$root/tests/refused-memory/refuse.c" -ldl || exit 3
STARVED_PROGRAM=$room/starved REFUSE_LIBRARY=$room/refuse.so python3 "$root/tests/refused-memory/runs.py" "$@"
