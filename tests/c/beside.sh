#!/usr/bin/env bash
# tests/c/beside.sh PREFIX, of tests/c.sh: a C program that links the library of PREFIX and another static library from Rust, with std and panics
# that unwind, runs, whichever comes first; no symbol is there twice. And cargo refuses a program that depends on rust/c and bindings/rust both,
# since either has the calls.

set -euo pipefail
[ $# = 1 ] || { echo "tests/c/beside.sh PREFIX" >&2; exit 2; }
root=$(CDPATH='' cd -- "$(dirname -- "$0")/../.." && pwd -P)
prefix=$(CDPATH='' cd -- "$1" && pwd -P)
at=$(mktemp -d)
trap 'rm -rf "$at"' EXIT
cd "$at"

cat > second.rs <<'RUST'
#[unsafe(no_mangle)]
pub extern "C" fn second(count: u32) -> u32 {
    let caught = std::panic::catch_unwind(|| (0..count).map(|it| format!("{it}").len()).collect::<Vec<usize>>()[count as usize]);
    u32::from(caught.is_err())
}
RUST
cat > both.c <<'C'
#include "sctp_endpoint.h"
uint32_t second(uint32_t count);
int main(void) {
    struct sctp_endpoint end = SCTP_ENDPOINT_INIT;
    struct sctp_endpoint_config config = SCTP_ENDPOINT_CONFIG(5000, 5001);
    if (second(3) != 1 || sctp_endpoint_caller(&end, &config) != SCTP_EP_OK || second(0) != 1) return 1;
    sctp_endpoint_free(&end);
    return 0;
}
C
rustc --edition 2024 --crate-type staticlib -C opt-level=2 second.rs 2> said || { cat said; exit 1; }
read -ra system < <(rustc --edition 2024 --crate-type staticlib --print native-static-libs second.rs 2>&1 | sed -n 's/.*native-static-libs: //p')
ours=("$prefix/lib/libsctp_endpoint.a" "$prefix/lib/libsctp_endpoint_malloc.a")
link() { "${CC:-cc}" -O2 -I"$prefix/include" -o both both.c "$@" "${system[@]}" && RUST_BACKTRACE=0 ./both 2> said; }
link "${ours[@]}" libsecond.a
link libsecond.a "${ours[@]}"
link libsecond.a -Wl,--whole-archive "${ours[@]}" -Wl,--no-whole-archive
echo "c: beside another static library from Rust, in each order, and linked whole"

mkdir src
cat > Cargo.toml <<TOML
[package]
name = "both"
version = "0.1.0"
edition = "2024"
[dependencies]
sidorghu-c = { path = "$root/rust/c" }
sctp_endpoint = { path = "$root/bindings/rust" }
[workspace]
TOML
echo 'fn main() {}' > src/main.rs
if cargo metadata --format-version 1 --offline > /dev/null 2> said; then echo "cargo takes both libraries into one program"; exit 1; fi
grep -q 'links to' said || { cat said; exit 1; }
echo "c: cargo refuses rust/c and bindings/rust in one program"
