#!/bin/sh
# A sender far along, beside the second model: the program of tests/far and tests/model/far.py make the calls of tests/far/steps, and must print
# the same lines. Its indexes come beyond 2^31 and 2^32 by messages of 65,536 bytes in fragments of 4, each abandoned once its first fragment went;
# its MIDs beyond 2^26 by messages of one byte. The model's sender is set to what such a way leaves. To be run by hand:
#   tests/far.sh            indexes at 2^31, by a sender whose TSNs wrap there; at 2^31 and 2^32, by one whose TSNs wrap at 2^32; MIDs at 2^26
#                           (some seven minutes of processor time once the program is built)
#   tests/far.sh quick      indexes and MIDs at 2^17 and 2^18, by eight and sixteen such messages and by as many as above, of one fragment; the
#                           model goes the whole way too (a minute and a half)
# It says how many lines are equal, ends with 0 where all are, and needs Python.

root=$(CDPATH='' cd -- "$(dirname -- "$0")/.." && pwd -P) || exit 3
room=$(mktemp -d) || exit 3
trap 'rm -rf -- "$room"' EXIT
trap 'exit 130' HUP INT TERM
python3 "$root/tests/build.py" far "$room/far" || exit 1

# The lines of both for these words; the model's words have $whole before them.
both() {
    "$room/far" "$@" <"$root/tests/far/steps" >"$room/said" &&
        python3 "$root/tests/model/far.py" $whole "$@" <"$root/tests/far/steps" >"$room/wanted" &&
        cmp -- "$room/wanted" "$room/said" || { echo "$*: not equal"; exit 1; }
    echo "$*: $(wc -l <"$room/said") lines, equal"
}

whole=
case ${1:-} in
quick)
    whole=whole
    both abandoned 16384 17 18
    both abandoned 1 17
    both abandoned 1 17 18
    both delivered 17
    both delivered 18
    ;;
*)
    both abandoned 16384 31
    both abandoned 16384 31 32
    both delivered 26
    ;;
esac
