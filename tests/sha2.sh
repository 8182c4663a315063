#!/usr/bin/env bash
# The shim's SHA-256 beside that of the crate `sha2`, as Debian packages it: all lengths to some thousands, whole and in pieces (a minute). It needs cargo and
# the package librust-sha2-dev; what is missing is said, and it ends with 2. It ends with 1 if a hash differs. Nothing is fetched.

set -u
root=$(CDPATH='' cd -- "$(dirname -- "$0")/.." && pwd -P) || exit 3
missing() { echo "tests/sha2.sh: $1 is missing"; exit 2; }
command -v cargo >/dev/null 2>&1 || missing cargo
registry=/usr/share/cargo/registry
ls -d "$registry"/sha2-* >/dev/null 2>&1 || missing "Debian's package librust-sha2-dev"

room=$(mktemp -d) || exit 3
trap 'rm -rf -- "$room"' EXIT
mkdir -p "$room/src" "$room/.cargo" || exit 3
printf '[source.crates-io]\nreplace-with = "debian"\n\n[source.debian]\ndirectory = "%s"\n' "$registry" >"$room/.cargo/config.toml"
printf '[package]\nname = "beside"\nversion = "0.1.0"\nedition = "2024"\n\n[dependencies]\nsha2 = { version = "*", default-features = false }\n\n[workspace]\n' >"$room/Cargo.toml"
cat >"$room/src/main.rs" <<END
#[path = "$root/rust/shim/sha2.rs"]
mod shim;

use sha2::Digest as _;
use shim::Digest as _;

fn next(state: &mut u64) -> usize {
    *state = state.wrapping_mul(6_364_136_223_846_793_005).wrapping_add(1_442_695_040_888_963_407);
    (*state >> 33) as usize
}

/// The hash of bytes that are given in pieces.
fn in_pieces(bytes: &[u8], state: &mut u64) -> [u8; 32] {
    let (mut hash, mut rest) = (shim::Sha256::new(), bytes);
    while !rest.is_empty() {
        let (now, later) = rest.split_at(1 + next(state) % rest.len().min(200));
        hash.update(now);
        rest = later;
    }
    hash.finalize()
}

fn main() {
    let mut state = 1;
    let (mut hashes, mut wrong) = (0, 0);
    for length in (0..=4_200).chain([65_535, 65_536, 1_000_003]) {
        let bytes: Vec<u8> = (0..length).map(|_| next(&mut state) as u8).collect();
        let theirs: [u8; 32] = sha2::Sha256::digest(&bytes).into();
        for ours in [shim::Sha256::digest(&bytes), in_pieces(&bytes, &mut state)] {
            hashes += 1;
            if ours != theirs {
                wrong += 1;
                println!("{length} bytes: {ours:02x?} | {theirs:02x?}");
            }
        }
    }
    println!("{hashes} hashes compared: {wrong} differ");
    std::process::exit(i32::from(wrong > 0));
}
END
cd -- "$room" || exit 3
if ! CARGO_TARGET_DIR=$room/target cargo build --quiet --offline --release >"$room/said" 2>&1; then
    tail -n 20 "$room/said"
    echo 'tests/sha2.sh: the program beside the crate sha2 is not built'
    exit 3
fi
"$room/target/release/beside"
