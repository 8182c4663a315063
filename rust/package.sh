#!/usr/bin/env bash
# Writes the crate `sidorghu` as it is published, to a new folder outside the checkout: `rust/package.sh FOLDER`. It needs nothing but rustc and cargo:
# the front, the shim and the erased sources are files of it, with tests, examples, licences and a page that says of which commit they are. Then it is
# packaged (FOLDER/target/package/*.crate), unpacked, and built and tested from there, without a network. It ends with 1 and the last lines of what was
# said if a step fails, and with 2 if it isn't called so.

set -u
root=$(CDPATH='' cd -- "$(dirname -- "$0")/.." && pwd -P) || exit 3
wrong() { echo "package.sh: $1" >&2; exit 2; }
[ $# -eq 1 ] || wrong 'usage: rust/package.sh FOLDER'
mkdir -p -- "$1" || exit 3
out=$(CDPATH='' cd -- "$1" && pwd -P) || exit 3
case "$out/" in "$root"/*) wrong "$out is in the checkout" ;; esac
[ -z "$(ls -A -- "$out")" ] || wrong "$out isn't empty"
command -v cargo >/dev/null 2>&1 || wrong 'there is no cargo'

room=$(mktemp -d) || exit 3
trap 'rm -rf -- "$room"' EXIT
export CARGO_TARGET_DIR=$room/target CARGO_NET_OFFLINE=true

# step TEXT FOLDER COMMAND..: runs a command in a folder; at a fault its last lines, and the end.
step() {
    local text=$1 folder=$2
    shift 2
    (cd -- "$folder" && "$@") >"$room/said" 2>&1 && return
    tail -n 30 "$room/said"
    echo "package.sh: FAILED: $text"
    exit 1
}

# The crates that these stand on, and these.
closure() {
    awk -v wanted="$*" '
        /^[a-z]/ { name = $1; sub(":", "", name); $1 = ""; stands[name] = $0 }
        function add(name,   parts, count, at) {
            if (!(name in stands) || name in added) return
            added[name] = 1
            count = split(stands[name], parts, " ")
            for (at = 1; at <= count; at++) add(parts[at])
            print name
        }
        END { count = split(wanted, names, " "); for (at = 1; at <= count; at++) add(names[at]) }
    ' "$root/crates.txt" | sort
}

# A value of the workspace.
value() { sed -n "s/^$1 = \"\(.*\)\"/\1/p" "$root/rust/Cargo.toml" | head -n 1; }

commit=$(git -C "$root" rev-parse HEAD 2>/dev/null || echo unknown)
[ -z "$(git -C "$root" status --porcelain 2>/dev/null)" ] || commit="$commit, changed"
kit=$(sed -n 's/.*`rt version` says `\(.*\)`.*/\1/p' "$root/README.md" | head -n 1)
generated="Generated from commit $commit, whose sources are proved with the kit \`${kit:-unknown}\`. Not to be edited: changes belong to those sources."

step 'the sources are erased' "$root/rust" cargo run --quiet --locked -p sidorghu-eraser --bin sidorghu-erase -- "$root" "$room/erased" --fast-checksum
cp -r -- "$root/rust/sidorghu/src" "$root/rust/sidorghu/examples" "$root/rust/sidorghu/tests" "$out"/ || exit 3
cp -r -- "$root/rust/shim" "$out/src/shim" || exit 3
rm -f -- "$out/src/shim/"{anyhow,clap,hex,itoa}.rs
cp -- "$root"/LICENSE "$root"/LICENSE-* "$root"/rust/rustfmt.toml "$out"/ || exit 3

# The crates as modules; those that data channels alone need are behind their feature.
closure sctp_endpoint >"$room/always"
for name in $(closure sctp_channels); do
    mkdir -p -- "$out/src/erased" && cp -r -- "$room/erased/$name" "$out/src/erased/$name" || exit 3
    grep -qx "$name" "$room/always" || echo '#[cfg(feature = "channels")]'
    echo '#[allow(dead_code, unused_imports, unused_labels, unused_variables, unused_must_use, clippy::all)]'
    printf '#[path = "erased/%s/mod.rs"]\npub(crate) mod %s;\n' "$name" "$name"
done >"$room/modules"

# The front names the shim and the modules where they are now.
grep -q '^include!(concat!(env!("OUT_DIR"), "/erased.rs"));$' "$out/src/lib.rs" || { echo 'package.sh: FAILED: lib.rs includes the erased sources in another way'; exit 1; }
sed -i -e 's|"../../shim/|"shim/|' -e '/^include!(concat!(env!("OUT_DIR")/{' -e "r $room/modules" -e 'd' -e '}' "$out/src/lib.rs"
sed -i 's|"../../../shim/|"../../src/shim/|' "$out"/tests/shim/main.rs

# What cargo reads of the crate, and its page.
more='readme = "README.md"\nkeywords = ["sctp", "webrtc", "datachannel", "verified", "no_std"]\ncategories = ["network-programming", "no-std"]'
sed -e '/^build = /d' -e '/^\[build-dependencies\]/,/^$/d' \
    -e "s|^version.workspace = true|version = \"$(value version)\"|" -e "s|^edition.workspace = true|edition = \"$(value edition)\"|" \
    -e "s|^rust-version.workspace = true|rust-version = \"$(value rust-version)\"|" -e "s|^license.workspace = true|license = \"$(value license)\"\n$more|" \
    "$root/rust/sidorghu/Cargo.toml" >"$out/Cargo.toml"
{ echo '```rust'; grep -v '^//!' "$out/examples/first.rs" | sed '/./,$!d'; echo '```'; } >"$room/first"
sed -e "/^FIRST PROGRAM$/{" -e "r $room/first" -e d -e '}' -e "s|MSRV|$(value rust-version)|" -e "s|^GENERATED$|$generated|" "$root/rust/sidorghu/README.md" >"$out/README.md"
sed -i "s|^extern crate alloc;|// $generated\nextern crate alloc;|" "$out/src/lib.rs"

export CARGO_TARGET_DIR=$out/target
step 'cargo packages it' "$out" cargo package --quiet --offline --allow-dirty
made=$(ls "$out"/target/package/*.crate)
step 'it is unpacked' "$room" tar -xf "$made"
export CARGO_TARGET_DIR=$room/target
step 'its tests pass' "$room/sidorghu-$(value version)" cargo test --quiet --offline
step 'its tests pass without data channels' "$room/sidorghu-$(value version)" cargo test --quiet --offline --no-default-features
step 'its tests pass with the checksum of the processor' "$room/sidorghu-$(value version)" cargo test --quiet --offline --features fast-checksum
echo "package.sh: $made, $(du -k "$made" | cut -f 1) KiB: built and tested as it is"
