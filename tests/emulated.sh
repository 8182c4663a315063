#!/usr/bin/env bash
# The stored rows by programs for other processors, by the emulators of qemu-user: aarch64, and s390x, whose bytes are in the other order; and a processor
# of 32 bits, for which nothing is built: rustc says why. To be run by hand:
#   tests/emulated.sh            all three (some minutes)
#   tests/emulated.sh s390x      this one
# It needs a cargo whose rustc has the standard library for the target (of Debian: cargo-web, rustc-web and libstd-rust-web-dev of one version for both
# architectures; `dpkg -x` of the latter is enough), a linker and the emulator. If one isn't there it says which and ends with 2; if a test fails, with 1.
# What is built lies outside the checkout.

set -u
root=$(CDPATH='' cd -- "$(dirname -- "$0")/.." && pwd -P) || exit 3
room=$(mktemp -d) || exit 3
trap 'rm -rf -- "$room"' EXIT
trap 'exit 130' HUP INT TERM
export CARGO_TARGET_DIR=$room/target CARGO_NET_OFFLINE=true
cd -- "$root/rust" || exit 3

missing() { echo "tests/emulated.sh: missing: $1"; exit 2; }

# Takes the first cargo whose rustc has the standard library for this target: that of the PATH, else Debian's.
take_cargo() {
    local folder
    for folder in "$(dirname -- "$(command -v rustc || echo /)")" /usr/bin; do
        if [ -x "$folder/cargo" ] && ls "$("$folder/rustc" --print target-libdir --target "$1" 2>/dev/null)"/libcore-* >/dev/null 2>&1; then
            cargo=$folder/cargo
            export RUSTC=$folder/rustc
            return
        fi
    done
    missing "a rustc with the standard library for $1 (of Debian: libstd-rust-web-dev:$2)"
}

# emulated PROCESSOR DEBIAN: all tests of the programs, compiled for it.
emulated() {
    local target=$1-unknown-linux-gnu linker=$1-linux-gnu-gcc named
    command -v "$linker" >/dev/null 2>&1 || missing "$linker (of Debian: gcc-$1-linux-gnu)"
    [ -e "/usr/$1-linux-gnu/lib/Scrt1.o" ] || missing "libraries for $linker (of Debian: libc6-dev-$2-cross)"
    command -v "qemu-$1" >/dev/null 2>&1 || missing "qemu-$1 (of Debian: qemu-user)"
    take_cargo "$target" "$2"
    named=$(printf '%s' "$target" | tr 'a-z-' 'A-Z_')
    export SIDORGHU_RUNNER="qemu-$1 -L /usr/$1-linux-gnu"
    export "CARGO_TARGET_${named}_LINKER=$linker" "CARGO_TARGET_${named}_RUNNER=$SIDORGHU_RUNNER"
    echo "== $1, $("$RUSTC" --version)"
    "$cargo" test --quiet --locked --profile checked --target "$target" -p sidorghu-programs || failed=1
}

# A processor of 32 bits: the build ends with the reason.
refused() {
    take_cargo i686-unknown-linux-gnu i386
    echo "== i686, $("$RUSTC" --version)"
    if "$cargo" check --quiet --locked --target i686-unknown-linux-gnu -p sidorghu >"$room/said" 2>&1; then
        echo 'it is built, for 32 bits'
        failed=1
    elif grep 'error: .*64 bits' "$room/said"; then
        echo 'refused, as it should be'
    else
        tail -n 9 -- "$room/said"
        failed=1
    fi
}

failed=0
for processor in "${@:-aarch64 s390x i686}"; do
    for it in $processor; do
        case $it in
            aarch64) emulated aarch64 arm64 ;;
            i686) refused ;;
            *) emulated "$it" "$it" ;;
        esac
    done
done
exit $failed
