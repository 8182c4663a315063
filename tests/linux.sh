#!/bin/sh
# The Linux kernel's SCTP as the peer of the library for C, in real time: a kernel as a process (user-mode Linux), whose network card is one end of a
# pair of sockets. It needs no root and no network. Messages of 1 to 65,536 bytes each way, closings, loss, partial reliability, resets, aborts,
# heartbeats, restarts, full windows; a line for each trial. To be run by hand:
#   tests/linux.sh                       every trial: some fifteen minutes
#   tests/linux.sh resets 'over UDP'     those whose names have one of these words; --list prints the names
#   tests/linux.sh --packets FOLDER --repeat 5 'by both'    each five times, and their packets as lines in this folder
#   tests/linux.sh --patience 4          on a busy machine: it waits four times as long for what is wanted
# The library is what `(cd crates/sctp_c && rt lib)` built, or the shared library that SCTP_ENDPOINT_LIBRARY names: `./install.sh --cargo PREFIX`
# makes PREFIX/lib/libsctp_endpoint.so.1. The kernel is that of Debian's package user-mode-linux, or, without installing it, of a folder
# that UML names: `apt-get download user-mode-linux && dpkg-deb -x user-mode-linux_*.deb FOLDER`.
# Each trial is good, or Linux breaks a section of an RFC, which is named, and must do so again; or WRONG. Status 0: none is wrong. 1: some are.
# 2: user-mode-linux isn't installed, and one line says so. 3: there is no library, no C compiler, or the kernel doesn't boot.

root=$(CDPATH='' cd -- "$(dirname -- "$0")/.." && pwd -P) || exit 3
room=$(mktemp -d) || exit 3
trap 'rm -rf -- "$room"' EXIT
trap 'exit 130' HUP INT TERM
for at in "${UML-}" ''; do
    program=$at/usr/bin/linux.uml
    [ -x "$program" ] && break
done
modules=
for folder in "$at"/usr/lib/uml/modules/*/; do
    [ -f "${folder}kernel/net/sctp/sctp.ko" ] && modules=$folder
done
if [ ! -x "$program" ] || [ -z "$modules" ]; then echo "user-mode-linux isn't installed: nothing was run"; exit 2; fi
command -v cc >"$room/said" || { echo 'tests/linux.sh: there is no C compiler, cc' >&2; exit 3; }
cc -std=gnu11 -O2 -Wall -Wextra -static -o "$room/socket" "$root/tests/linux/"*.c || exit 3
if [ -z "${SCTP_ENDPOINT_LIBRARY-}" ]; then
    "$root/install.sh" "$room/library" >"$room/said" || exit 3
    SCTP_ENDPOINT_LIBRARY=$room/library/lib/libsctp_endpoint.so.1
    export SCTP_ENDPOINT_LIBRARY
fi
PYTHONPATH=$root/bindings/python python3 -B "$root/tests/linux/run.py" "$program" "$modules" "$room/socket" "$room" "$@"
