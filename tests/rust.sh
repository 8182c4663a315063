#!/usr/bin/env bash
# The sources as plain Rust, in the gate (a minute): all are erased, which refuses what the eraser has no row for; a second program, which shares no rule
# with the eraser, looks whether the erased text is the sources word for word, and tells faults that are sown in it; and cargo checks the workspace in
# rust/ with its tests. What is built lies in a folder outside the checkout, which is removed at the end; nothing is written in the checkout, and no
# network is used. Where there is no cargo, or one that is older than rust/Cargo.toml asks for, it says so and ends with 0. At a fault it says which, and
# ends with 1.

set -u
root=$(CDPATH='' cd -- "$(dirname -- "$0")/.." && pwd -P) || exit 3
exec </dev/null
umask 022
began=$SECONDS
left_out() { echo "tests/rust.sh: left out: $1"; exit 0; }

command -v cargo >/dev/null 2>&1 || left_out 'there is no cargo'
# rustup's cargo finds its toolchain from HOME, which may be another one here.
beside=$(dirname -- "$(dirname -- "$(dirname -- "$(command -v cargo)")")")/.rustup
cargo --version >/dev/null 2>&1 || export RUSTUP_HOME=$beside
has=$(cargo --version 2>/dev/null | sed -n 's/^cargo 1\.\([0-9]*\)\..*/\1/p')
needs=$(sed -n 's/^rust-version = "1\.\([0-9]*\).*/\1/p' "$root/rust/Cargo.toml")
[ -n "$has" ] || left_out "cargo doesn't run: $(cargo --version 2>&1 | head -n 1)"
rustc --version >/dev/null 2>&1 || left_out "rustc doesn't run: $(rustc --version 2>&1 | head -n 1)"
command -v cc >/dev/null 2>&1 || left_out 'there is no cc, by which rustc links'
[ "$has" -ge "$needs" ] || left_out "cargo is 1.$has, and rust/Cargo.toml asks for 1.$needs"

room=$(mktemp -d) || exit 3
trap 'rm -rf -- "$room"' EXIT
trap 'exit 130' HUP INT TERM
# Neither the settings of a user nor what else a build here would take from its surroundings.
unset RUSTFLAGS CARGO_ENCODED_RUSTFLAGS RUSTC_WRAPPER RUSTC_WORKSPACE_WRAPPER CARGO_BUILD_TARGET
export CARGO_HOME=$room/cargo CARGO_TARGET_DIR=$room/target CARGO_NET_OFFLINE=true

# step TEXT COMMAND..: runs a command in rust/; at a fault its last lines, and the end.
step() {
    local text=$1
    shift
    (cd -- "$root/rust" && "$@") >"$room/said" 2>&1 && return
    grep -v '^ *Compiling\|^ *Checking' "$room/said" | tail -n 30
    echo "tests/rust.sh: FAILED: $text"
    exit 1
}

step 'the sources are erased' cargo run --quiet --locked --offline -p sidorghu-eraser --bin sidorghu-erase -- "$root" "$room/erased"
step 'the checksum has the place where the processor is asked' cargo run --quiet --locked --offline -p sidorghu-eraser --bin sidorghu-erase -- \
    "$root" "$room/other" --fast-checksum
step "docs/RUST.md shows the eraser's table" sh -c 'cargo run --quiet --locked --offline -p sidorghu-eraser --bin sidorghu-erase -- --rows >"$1" &&
    sed -n "/^<!-- rows -->\$/,/^<!-- end of rows -->\$/p" ../docs/RUST.md | sed "1d;\$d" | diff "$1" -' sh "$room/rows"
step 'the erased text is the sources, word for word' python3 -B same_code.py "$root" "$room/erased"
step 'faults that are sown in it are told' python3 -B sown_faults.py "$root" "$room/erased"
step 'cargo checks the workspace and its tests' cargo check --quiet --locked --offline --workspace --all-targets
echo "tests/rust.sh: all sources erased and compared, and cargo 1.$has checks them: $((SECONDS - began)) seconds"
