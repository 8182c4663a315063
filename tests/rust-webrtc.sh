#!/bin/sh
# A page in a browser without a screen talks to a program in Rust over WebRTC data channels: examples/webrtc.rs of the crate in rust/sidorghu, which cargo
# builds here from the proved sources, and the page of examples/webrtc; ICE and DTLS are aiortc's, on the loopback interface alone. The page opens
# channels, sends text and binary data, empty and up to 65,536 bytes, gets each back, closes the channels, and goes; then a second page does it again.
# To a third one the program opens a channel, and closes it.
# To be run by hand; neither the toolchain nor the library for C is needed:
#   tests/rust-webrtc.sh             Chromium, a minute with the build
#   tests/rust-webrtc.sh firefox     Firefox in its place
# Status 0: all is as wanted. 1: not so, and lines say what. 2: a package isn't installed (Debian: cargo, python3-aiortc, chromium or firefox-esr), and one
# line says which. 3: the program isn't built.

root=$(CDPATH='' cd -- "$(dirname -- "$0")/.." && pwd -P) || exit 3
place=$(mktemp -d) || exit 3
trap 'rm -rf -- "$place"' EXIT
trap 'exit 130' HUP INT TERM
case ${1-chromium} in
chromium) browser=chromium package=chromium ;;
firefox) browser=firefox package=firefox-esr ;;
*) echo 'tests/rust-webrtc.sh [chromium | firefox]' >&2; exit 3 ;;
esac
python=
for it in python3 /usr/bin/python3; do
    if "$it" -c 'import aiortc' 2>"$place/said"; then python=$it; break; fi
done
if [ -z "$python" ]; then echo "python3-aiortc isn't installed: nothing was run"; exit 2; fi
for it in "$package" cargo; do
    command -v "$it" >"$place/said" || { echo "$it isn't installed: nothing was run"; exit 2; }
done
target=${CARGO_TARGET_DIR:-$place/target} # outside the checkout
(cd "$root/rust" && cargo build --quiet --offline --locked --target-dir "$target" --release -p sidorghu --example webrtc) || exit 3
cp "$target/release/examples/webrtc" "$place/echo" || exit 3
"$package" --version 2>"$place/said"
"$python" -B "$root/tests/webrtc/bridged.py" "$browser" "$place"
