#!/bin/sh
# Long and mixed schedules over a pair, each checked against the five promises by what the program of tests/schedules itself keeps. To be run by hand:
#   tests/schedules.sh                 200 schedules of 2,000 steps for each of four modes and two habits, the same between ends of which a SACK may
#                                      wait, and the two long rows (some twenty seconds once the program is built: a quarter of an hour, the
#                                      libraries first)
#   tests/schedules.sh 20x2000 rows    20 of each, and the rows: what it prints then must be tests/schedules/stdout, and is compared with it
#   tests/schedules.sh COUNTxSTEPS     so many of so many steps; with delay: before it, between ends of which a SACK may wait
# It ends with 0 where no promise is broken, and needs Python to build.

root=$(CDPATH='' cd -- "$(dirname -- "$0")/.." && pwd -P) || exit 3
room=$(mktemp -d) || exit 3
trap 'rm -rf -- "$room"' EXIT
trap 'exit 130' HUP INT TERM
python3 "$root/tests/build.py" schedules "$room/schedules" || exit 1
[ $# -gt 0 ] || set -- 200x2000 delay:200x2000 rows
"$room/schedules" "$@" >"$room/said"
status=$?
cat -- "$room/said"
if [ "$*" = "20x2000 rows" ]; then
    cmp -- "$root/tests/schedules/stdout" "$room/said" || exit 1
fi
exit "$status"
