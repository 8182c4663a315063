#!/bin/sh
# The library for C over real UDP sockets, through a path of 10 or 50 Mbit/s with 20 ms each way and a queue of 50 or 200 packets, in namespaces of its
# own: alone, beside the kernel's TCP (reno, cubic, bbr), beside usrsctp and itself; a path that is dead for some seconds; a changed UDP port; 2,000
# associations through one socket. Figures, with what is wanted beside them; a run in which the path itself was late is thrown away, and a line says
# so. To be run by hand, as root:
#   tests/field.sh                          three runs of 60 seconds each: some three hours
#   tests/field.sh --runs 1 --seconds 20 alone beside port    these parts (the others: outages, many), shorter
# The library is what `(cd crates/sctp_c && rt lib)` built, or that in the folder SCTP_ENDPOINT_PREFIX, as `./install.sh --cargo PREFIX` makes it.
# Status 0: all was run. 2: it isn't root, or a package isn't installed (Debian: iproute2), or there is no /dev/net/tun, and one line says so. 3: there
# is no library, no C compiler, or something failed. Without libusrsctp (libusrsctp-dev) the runs beside it are left out, and a line says so.

root=$(CDPATH='' cd -- "$(dirname -- "$0")/.." && pwd -P) || exit 3
room=$(mktemp -d) || exit 3
trap 'rm -rf -- "$room"' EXIT
trap 'exit 130' HUP INT TERM
[ "$(id -u)" = 0 ] || { echo 'this needs root, for namespaces and tun devices: nothing was run'; exit 2; }
command -v ip >"$room/said" || { echo "iproute2 isn't installed: nothing was run"; exit 2; }
[ -c /dev/net/tun ] || { echo 'there is no /dev/net/tun: nothing was run'; exit 2; }
ip netns add "field$$" 2>"$room/said" || { echo "no namespace can be made: nothing was run ($(cat "$room/said"))"; exit 2; }
ip netns del "field$$"
command -v cc >"$room/said" || { echo 'tests/field.sh: there is no C compiler, cc' >&2; exit 3; }
prefix=${SCTP_ENDPOINT_PREFIX-}
if [ -z "$prefix" ]; then
    prefix=$room/library
    "$root/install.sh" "$prefix" >"$room/said" || exit 3
fi
for name in relay tcp; do
    cc -std=gnu11 -O2 -Wall -Wextra -o "$room/$name" "$root/tests/field/$name.c" || exit 3
done
for name in sctp many; do
    cc -std=gnu11 -O2 -Wall -Wextra -I "$prefix/include" -o "$room/$name" "$root/tests/field/$name.c" \
        "$prefix/lib/libsctp_endpoint.a" "$prefix/lib/libsctp_endpoint_malloc.a" || exit 3
done
cc -std=gnu11 -O2 -Wall -Wextra -o "$room/usrsctp" "$root/tests/field/usrsctp.c" -lusrsctp 2>"$room/said" \
    || echo "libusrsctp isn't installed: there are no runs beside it"
python3 -B "$root/tests/field/run.py" "$room" "$@" || exit 3
