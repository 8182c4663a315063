#!/usr/bin/env bash
# tests/c/counts.sh PREFIX [--cargo], of tests/c.sh: what a message costs over the library of PREFIX, in instructions, by valgrind; over what cargo
# built, beside the library of `rt lib` if that is there.

set -euo pipefail
[ $# = 1 ] || [ $# = 2 ] || { echo "tests/c/counts.sh PREFIX [--cargo]" >&2; exit 2; }
root=$(CDPATH='' cd -- "$(dirname -- "$0")/../.." && pwd -P)
prefix=$(CDPATH='' cd -- "$1" && pwd -P)
by_cargo=$(($# - 1))
at=$(mktemp -d)
trap 'rm -rf "$at"' EXIT
cd "$root"
# a long copy by `rep movsb` would count as an instruction a byte
export GLIBC_TUNABLES=glibc.cpu.x86_rep_movsb_threshold=1000000000:glibc.cpu.x86_rep_stosb_threshold=1000000000

say() { echo "c: $*"; }
build() { # NAME PREFIX: the program tests/c/NAME.c over a library
    "${CC:-cc}" -std=c99 -D_DEFAULT_SOURCE -O2 -I"$2/include" -o "$at/$1" "tests/c/$1.c" "$2/lib/libsctp_endpoint.a" "$2/lib/libsctp_endpoint_malloc.a"
}
count() { valgrind --tool=callgrind --callgrind-out-file=/dev/null "$@" 2>&1 | sed -n 's/.*Collected : \([0-9]*\).*/\1/p'; }
# cost MANY SIZE [WORD]: a message of the size, so many at once, over two endpoints
cost() { echo $((($(count "$at/cost" "$1" "$2" 300 ${3:+"$3"}) - $(count "$at/cost" "$1" "$2" 100 ${3:+"$3"})) / 200 / $1)); }
four() { cost 19 64; cost 19 64 i; cost 1 64; echo $(($(cost 1 16384) - $(cost 1 16384 b))); }
rows=("64 bytes, 9.5 to a packet" "the same as I-DATA" "64 bytes, one to a packet" "16 KiB")
# what bench/README.md has in the row that begins so
page() { awk -F'|' -v row="| $1" 'index($0, row) == 1 { gsub(/[ ,]/, "", $4); print $4; exit }' bench/README.md; }

if [ "$by_cargo" = 1 ] && [ -f crates/sctp_c/out/libsctp_c.a ]; then
    ./install.sh "$at/proved"
    build cost "$at/proved"
    mapfile -t proved < <(four)
fi
build cost "$prefix"
mapfile -t here < <(four)
for row in 0 1 2 3; do
    say "${rows[row]}: ${here[row]} instructions a message, $(page "${rows[row]}") in bench/README.md; at most a twentieth more is wanted"
    [ $((here[row] * 20)) -le $(($(page "${rows[row]}") * 21)) ]
    [ -n "${proved:-}" ] || continue
    say "${rows[row]}: ${here[row]} by cargo, ${proved[row]} by the toolchain; 1.03 of that is wanted at most"
    [ $((here[row] * 100)) -le $((proved[row] * 103)) ]
done

build channels_cost "$prefix"
for row in "19 1 150" "19 1024 180" "1 1 150" "1 1024 185"; do
    read -r many streams most <<< "$row"
    # LLVM inlines otherwise in what cargo builds: ten more
    most=$((most + 10 * by_cargo))
    over=$((($(count "$at/channels_cost" "$many" 64 300 "$streams") - $(count "$at/channels_cost" "$many" 64 100 "$streams")) / 200 / many))
    more=$((over - $(cost "$many" 64)))
    say "64 bytes, $many at once, on the last of $streams channels: $more instructions more than over an endpoint; $most more are wanted at most"
    [ "$more" -le "$most" ]
done
