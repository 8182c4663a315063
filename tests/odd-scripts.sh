#!/bin/sh
# Scripts of odd bytes, and scripts with every limit at an edge, through the built sctp-trace and through the model of tests/model, which was
# written apart from it. What differs is printed and kept in tests/model/found. To be run by hand:
#   tests/odd-scripts.sh               2,000 scripts of each kind (some four minutes once sctp-trace is built)
#   tests/odd-scripts.sh N [SEED]      N of each, from this seed on
# It ends with 0 where none differs, and needs Python alone.

root=$(CDPATH='' cd -- "$(dirname -- "$0")/.." && pwd -P) || exit 3
crate=$root/crates/sctp_trace_main
room=$(mktemp) || exit 3
trap 'rm -f -- "$room"' EXIT
trap 'exit 130' HUP INT TERM
# It proves and builds the program, unless it is built.
(cd -- "$crate" && rt run </dev/null >"$room" 2>&1)
[ -x "$crate/out/sctp_trace_main" ] || { tail -n 9 -- "$room"; exit 1; }
differs=0
for kind in odd edges; do
    printf '%s: ' "$kind"
    python3 "$root/tests/model/compare.py" --program "$crate/out/sctp_trace_main" "--$kind" "${1:-2000}" "${2:-1}" || differs=1
done
exit "$differs"
