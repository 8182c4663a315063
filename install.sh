#!/usr/bin/env bash
# The library for C, put where C finds it:
#
#     install.sh PREFIX            PREFIX/lib (libsctp_endpoint.a, libsctp_endpoint_malloc.a, libsctp_endpoint.so.1, pkgconfig/sctp_endpoint.pc),
#                                  PREFIX/include (sctp_endpoint.h, sctp_channels.h) and the licences in PREFIX/share/licenses/sctp_endpoint
#     install.sh --archive FILE    the same as FILE, a .tar.gz of one folder, sctp_endpoint-VERSION, which may be unpacked anywhere: pkg-config
#                                  finds the rest from where its own file is. It prints what stands in the archive
#
# With --cargo before these it is built by cargo from the erased sources, which takes a minute, for any target of 64 bits (CARGO_BUILD_TARGET names
# another than this machine's; CC and AR are its tools then); --cargo=fast-checksum has the processor's checksum where there is one. Else it is what
# `rt lib` proved and built in crates/sctp_c. It needs cargo or `rt`, a C compiler (CC) and ar (AR); who has an archive needs none of them.
# `pkg-config --variable=build sctp_endpoint` says which build it is.

set -euo pipefail
usage() { echo "install.sh [--cargo[=FEATURES]] PREFIX | install.sh [--cargo[=FEATURES]] --archive FILE" >&2; exit 2; }
fail() { echo "install.sh: $*" >&2; exit 1; }
root=$(CDPATH='' cd -- "$(dirname -- "$0")" && pwd -P)
header=$root/include/sctp_endpoint.h
version=$(sed -n 's/^#define SCTP_EP_VERSION "\(.*\)"$/\1/p' "$header")
abi=$(sed -n 's/^#define SCTP_EP_ABI \([0-9]*\)u$/\1/p' "$header")
if [ -z "$version" ] || [ -z "$abi" ]; then fail "no version in $header"; fi
soname=libsctp_endpoint.so.$abi
at=$(mktemp -d)
trap 'rm -rf "$at"' EXIT

# Set what is installed: `core`, the library; `heap`, its memory by malloc; `build`, how it was built.
proved() {
    core=$root/crates/sctp_c/out/libsctp_c.a
    [ -f "$core" ] || fail "first (cd crates/sctp_c && rt lib), or --cargo"
    heap=$(dirname "$(rt doc)")/c/liblibc_c.a
    build="proved by $(rt version | head -n 1), compiled by Rattle"
}

# own_of ARCHIVE NAME PATTERN: the archive with the objects of this pattern alone, as the variable NAME. The others are rustc's own runtime, of
# which the library needs nothing that the C compiler's doesn't have, and what rustc notes for itself.
own_of() {
    mkdir "$at/$2"
    # shellcheck disable=SC2086
    (cd "$at/$2" && "${AR:-ar}" x "$1" && "${AR:-ar}" crs "$at/$2.a" $3)
    printf -v "$2" %s "$at/$2.a"
}

erased() {
    command -v cargo > /dev/null || fail "no cargo"
    local target built
    # LLVM inlines functions that are longer than it would by itself: 1 to 3 % fewer instructions a message. RUSTFLAGS stands in place of this.
    local inlined='build.rustflags=["-C", "llvm-args=-inline-threshold=600"]'
    (cd "$root/rust" && cargo --config "$inlined" build --release --offline --package sidorghu-c --features "$features") \
        || fail "cargo build ended with $?"
    target=$(cd "$root/rust" && cargo metadata --format-version 1 --no-deps --offline | sed 's/.*"target_directory":"\([^"]*\)".*/\1/')
    built=$target/${CARGO_BUILD_TARGET:+$CARGO_BUILD_TARGET/}release
    own_of "$built/libsctp_endpoint.a" core 'sctp_endpoint*.o'
    own_of "$built/libsctp_endpoint_malloc.a" heap '*.o'
    build=$(sed -n 's/^build=//p' "$built/sctp_endpoint.pc")
}

# put FOLDER PREFIX: the files, in FOLDER, for use in PREFIX.
put() {
    local folder=$1 prefix=$2
    mkdir -p "$folder/lib/pkgconfig" "$folder/include" "$folder/share/licenses/sctp_endpoint"
    install -m 644 "$header" "$root/include/sctp_channels.h" "$folder/include/"
    install -m 644 "$core" "$folder/lib/libsctp_endpoint.a"
    install -m 644 "$heap" "$folder/lib/libsctp_endpoint_malloc.a"
    install -m 644 "$root"/LICENSE* "$folder/share/licenses/sctp_endpoint/"

    # The shared library exports the calls of the headers alone, and needs nothing but the C library.
    echo '{ global: sctp_endpoint_*; sctp_channels_*; local: *; };' > "$at/exports"
    "${CC:-cc}" -shared -o "$folder/lib/$soname" -Wl,-soname,"$soname" -Wl,--version-script="$at/exports" -Wl,-z,defs \
        -Wl,--whole-archive "$core" -Wl,--no-whole-archive "$heap"
    ln -sf "$soname" "$folder/lib/libsctp_endpoint.so"

    cat > "$folder/lib/pkgconfig/sctp_endpoint.pc" <<PC
prefix=$prefix
libdir=\${prefix}/lib
includedir=\${prefix}/include
build=$build

Name: sctp_endpoint
Description: One endpoint of an SCTP association, its sources formally verified: no sockets, no clock, no random numbers
Version: $version
Cflags: -I\${includedir}
Libs: -L\${libdir} -lsctp_endpoint
Libs.private: -lsctp_endpoint_malloc
PC
}

# What a file of the archive is.
meaning() {
    case $1 in
    *_malloc.a) echo "the static library's memory, by malloc: not linked by a program with functions of its own" ;;
    *.a) echo "the static library" ;;
    *.so."$abi") echo "the shared library, ABI $abi, its memory by malloc" ;;
    *.so) echo "its name for the linker" ;;
    *.pc) echo "for pkg-config: PKG_CONFIG_PATH is its folder" ;;
    *_channels.h) echo "the calls of data channels" ;;
    *.h) echo "the calls of an endpoint" ;;
    *) echo "a licence" ;;
    esac
}

# list FOLDER: each file of the archive, with its bytes.
list() {
    (cd "$1" && find . ! -type d | LC_ALL=C sort) | while read -r file; do
        size=$(if [ -L "$1/$file" ]; then echo link; else wc -c < "$1/$file"; fi)
        printf '%9s  %-45s %s\n' "$size" "${file#./}" "$(meaning "$file")"
    done
}

build_it=proved features=
case ${1:-} in
--cargo) build_it=erased; shift ;;
--cargo=*) build_it=erased features=${1#--cargo=}; shift ;;
esac
case ${1:-} in
--archive)
    [ $# = 2 ] || usage
    name=sctp_endpoint-$version
    "$build_it"
    put "$at/$name" "\${pcfiledir}/../.."
    tar -C "$at" --owner=0 --group=0 --sort=name --mtime='1970-01-01 00:00:00 UTC' -czf "$2" "$name"
    echo "$2: the folder $name, $build"
    list "$at/$name"
    ;;
'' | -*) usage ;;
*)
    [ $# = 1 ] || usage
    mkdir -p "$1"
    prefix=$(CDPATH='' cd -- "$1" && pwd -P)
    "$build_it"
    put "$prefix" "$prefix"
    echo "$prefix: sctp_endpoint $version, $build"
    ;;
esac
