#!/bin/sh
# Associations over paths in virtual time: the library for C and usrsctp in one process, under one clock. It prints how long the library's sender
# takes beside usrsctp's, over the same links and to the same receivers; what each of two senders gets of one queue; and how long messages take to
# a user that reads at times. tests/links/README.md says how the rows are read.
#   tests/links.sh                       43 links, 60 at random, shares, windows: some ten minutes of processor time
#   tests/links.sh --short               some of each: a minute
#   tests/links.sh --part grid           the 43 alone; likewise random, shares, windows, and wanted: the links of which something is wanted
#   tests/links.sh --seed 7              other links at random
#   tests/links.sh --seeds 10 --random 20 --shares 1   ten runs, not 50, where something is lost or late; 20 links at random; one run of each share
#   tests/links.sh --bytes 1000000       so much in each run, not 10 MB, or 1 MB where something is lost or late
#   tests/links.sh --only TEXT           the links with this text in their names
#   tests/links.sh --keep FILE           runs that FILE has of this program aren't made again, and the others are added to it
#   tests/links.sh WORD ..               the endpoint's options, in the words of sctp-end: data, data-pr, idata, idata-pr; delay, fast-retransmit,
#                                        congestion-control, reset, rto-min MS. Without a word: data congestion-control
#   tests/links.sh --program 'WORDS'     a program that answers as sctp-end does, in place of the library: ./sctp-end, `python3 tests/model/end.py`
# Before these: --proved takes the library that `rt lib` built, --cargo builds it of the erased sources, --prefix PREFIX takes it from where install.sh
# put it. Without one of them: the proved one, if it is there, else by cargo.
# Status 0: each message arrived, in order. 1: not so, and the last line says in which run. 2: a package is missing, and one line says which.
# 3: wrong words, or something failed.

root=$(CDPATH='' cd -- "$(dirname -- "$0")/.." && pwd -P) || exit 3
case ${1-} in -h | --help) sed -n '2,/^$/{/^#/s/^# \{0,1\}//p;}' "$0"; exit 0 ;; esac
lacks() { echo "tests/links.sh: $1 isn't installed (Debian: $2): nothing was run"; exit 2; }
room=$(mktemp -d) || exit 3
trap 'rm -rf -- "$room"' EXIT
trap 'exit 130' HUP INT TERM

built=$root/crates/sctp_c/out/libsctp_c.a prefix=$room/prefix by=
case ${1-} in
--proved) shift ;;
--cargo) by=--cargo; shift ;;
--prefix) by=taken prefix=$2; shift 2 ;;
*) [ -f "$built" ] || by=--cargo ;;
esac
command -v cc >"$room/said" || lacks 'a C compiler' gcc
command -v python3 >"$room/said" || lacks Python python3
[ "$by" != --cargo ] || command -v cargo >"$room/said" || lacks cargo cargo
printf '#include <usrsctp.h>\nint main(void) { return usrsctp_finish(); }\n' >"$room/look.c"
cc -o "$room/look" "$room/look.c" -lusrsctp 2>"$room/said" || lacks libusrsctp libusrsctp-dev

# shellcheck disable=SC2086
[ "$by" = taken ] || "$root/install.sh" $by "$prefix" >"$room/said" 2>&1 || { cat "$room/said" >&2; exit 3; }
cc -std=gnu11 -O2 -Wall -Wextra -I"$prefix/include" -o "$room/links" "$root"/tests/links/*.c "$prefix/lib/libsctp_endpoint.a" \
    "$prefix/lib/libsctp_endpoint_malloc.a" -lusrsctp -lm || exit 3
python3 -B "$root/tests/links/links.py" "$room/links" "$@"
