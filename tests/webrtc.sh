#!/bin/sh
# A page in a browser without a screen talks to an endpoint of this library over WebRTC data channels: the page and the program of examples/webrtc,
# on the loopback interface alone. Files are compared by SHA-256 at 0, 1 and 5 percent lost between endpoint and DTLS; channels of all kinds are
# opened by either side; 200 channels are opened, used and closed 20 times, by both sides; odd messages of DCEP go both ways (webrtc/odd.py); the
# program of docs/CHANNELS.md, in C, is built and talked to; the endpoint aborts. Then aiortc is at the other end. To be run by hand:
#   tests/webrtc.sh                  Chromium, and aiortc: some three minutes
#   tests/webrtc.sh firefox          Firefox in its place
#   tests/webrtc.sh aiortc           without a browser
#   tests/webrtc.sh firefox odd kinds    these trials alone
# The library is what `(cd crates/sctp_c && rt lib)` built, or the shared library that SCTP_ENDPOINT_LIBRARY names.
# Status 0: all is as wanted. 1: not so, and lines say what. 2: a package isn't installed (Debian: python3-aiortc, chromium or firefox-esr), and one
# line says which. 3: the library isn't built, or there is no C compiler.

root=$(CDPATH='' cd -- "$(dirname -- "$0")/.." && pwd -P) || exit 3
room=$(mktemp -d) || exit 3
trap 'rm -rf -- "$room"' EXIT
trap 'exit 130' HUP INT TERM
peer=chromium
case ${1-} in
chromium | firefox | aiortc) peer=$1; shift ;;
esac
python=
for it in python3 /usr/bin/python3; do
    if "$it" -c 'import aiortc' 2>"$room/said"; then python=$it; break; fi
done
if [ -z "$python" ]; then echo "python3-aiortc isn't installed: nothing was run"; exit 2; fi
case $peer in
chromium) program=chromium package=chromium ;;
firefox) program=firefox-esr package=firefox-esr ;;
aiortc) program=sh package=sh ;;
esac
command -v "$program" >"$room/said" || { echo "$package isn't installed: nothing was run"; exit 2; }
command -v cc >"$room/said" || { echo 'tests/webrtc.sh: there is no C compiler, cc' >&2; exit 3; }
if [ -z "${SCTP_ENDPOINT_LIBRARY-}" ]; then
    "$root/install.sh" "$room/library" >"$room/said" || exit 3
    SCTP_ENDPOINT_LIBRARY=$room/library/lib/libsctp_endpoint.so.1
    export SCTP_ENDPOINT_LIBRARY
fi
sed -n '/^```c$/,/^```$/p' "$root/docs/CHANNELS.md" | sed '/^```/d' >"$room/echo.c"
cc -std=gnu11 -O2 -Wall -Wextra -Werror -I "$root/include" -o "$room/echo" "$room/echo.c" "$SCTP_ENDPOINT_LIBRARY" \
    "-Wl,-rpath,${SCTP_ENDPOINT_LIBRARY%/*}" || exit 3
case $peer in
aiortc) "$python" -c 'import aiortc; print("aiortc", aiortc.__version__)' ;;
*) "$program" --version 2>"$room/said" ;;
esac
"$python" -B "$root/tests/webrtc/run.py" "$peer" "$room" "$@"
