#!/usr/bin/env bash
# The library for C, tried:
#   tests/c.sh            what (cd crates/sctp_c && rt lib) built: it needs `rt`
#   tests/c.sh --cargo    what cargo builds in rust/c: it needs cargo; if the library of `rt lib` is there too, their instructions are compared.
#                         --cargo=fast-checksum builds it with this feature
# It needs a C compiler; C++, valgrind, libusrsctp, cargo and python3 are used if they are there, and it says what it leaves out. It takes some
# minutes, and prints a line for each try.

set -euo pipefail
root=$(CDPATH='' cd -- "$(dirname -- "$0")/.." && pwd -P)
at=$(mktemp -d)
trap 'rm -rf "$at"' EXIT
cc=${CC:-cc}
cd "$root"
case "$*" in '' | --cargo | --cargo=*) ;; *) echo "tests/c.sh [--cargo[=FEATURES]]" >&2; exit 2 ;; esac
by=("$@")
./install.sh "${by[@]}" "$at/prefix"
prefix=$at/prefix
flags=(-std=c99 -D_DEFAULT_SOURCE -O2 -g -Wall -Wextra -Wpedantic -Werror -I"$prefix/include")
static=("$prefix/lib/libsctp_endpoint.a" "$prefix/lib/libsctp_endpoint_malloc.a")

say() { echo "c: $*"; }
there() { command -v "$1" > /dev/null || { say "left out, no $1: $2"; return 1; }; }

# ---- the headers' calls are the library's, and nothing else is seen of it
grep -oh 'sctp_\(endpoint\|channels\)_[a-z_]*(' "$prefix/include/"*.h | tr -d '(' | sort -u > "$at/header"
nm -g --defined-only "$prefix/lib/libsctp_endpoint.a" | awk 'NF == 3 { print $3 }' | sort -u > "$at/static"
nm -D --defined-only "$prefix/lib/libsctp_endpoint.so.1" | awk '{ print $3 }' | sort -u > "$at/shared"
diff "$at/header" "$at/static"
diff "$at/header" "$at/shared"
nm -u "$prefix/lib/libsctp_endpoint.a" | awk '$1 == "U" { print $2 }' | sort -u > "$at/needed"
printf '%s\n' memcpy memmove memset rattle_alloc rattle_dealloc rattle_realloc | diff - "$at/needed"
say "$(wc -l < "$at/header") calls in headers, static and shared library, which need memcpy, memmove, memset and the memory alone"

# ---- C99, C++, sizes, misuse, refused allocations
"$cc" "${flags[@]}" -o "$at/layout" tests/c/layout.c "${static[@]}"
"$at/layout"
"$cc" "${flags[@]}" -o "$at/refused" tests/c/refused.c "$prefix/lib/libsctp_endpoint.a"
told=$("$at/refused"); say "$told"
"$cc" "${flags[@]}" -o "$at/channels" tests/c/channels.c "${static[@]}"
"$at/channels"
"$cc" "${flags[@]}" -o "$at/channels_refused" tests/c/channels_refused.c "$prefix/lib/libsctp_endpoint.a"
told=$("$at/channels_refused"); say "$told"
"$cc" "${flags[@]}" -o "$at/two" examples/c/channels.c "${static[@]}"
[ "$("$at/two" | tail -n 2)" = "$(printf 'server, channel 0: closed\nclient, channel 0: closed')" ]
say "channels: misuse, buffers, two ends in one program"
"$cc" "${flags[@]}" -o "$at/kept" tests/c/kept.c "$prefix/lib/libsctp_endpoint.a"
for row in "10000000 19 1 65536" "1024 1024 1 32768" "32767 32767 1 65536" "1024 1024 10000 32768"; do
    read -r many at_once associations most <<< "$row"
    read -r stayed trimmed idle <<< "$("$at/kept" "$many" "$at_once" "$associations")"
    say "$many messages that are over, $at_once at once, in each of $associations associations: $stayed bytes more than $idle at both ends, after trim $trimmed; $most wanted at most"
    [ "$trimmed" -le "$most" ]
done
"$cc" "${flags[@]}" -o "$at/buffer" tests/c/buffer.c "${static[@]}"
for sizes in 17 64 "17 1114112"; do
    # shellcheck disable=SC2086
    told=$("$at/buffer" $sizes) || { say "buffer $sizes: $told"; exit 1; }
    say "$told"
done
if there "${CXX:-c++}" "the headers in C++"; then
    cat > "$at/plus.cc" <<'PLUS'
#include "sctp_channels.h"
int main(int count, char **) {
    struct sctp_endpoint e = SCTP_ENDPOINT_INIT;
    struct sctp_endpoint_config config = SCTP_ENDPOINT_CONFIG(5000 + count, 5001 + count);
    if (sctp_endpoint_caller(&e, &config) != SCTP_EP_OK) return 1;
    sctp_endpoint_free(&e);
    struct sctp_channels c = SCTP_CHANNELS_INIT;
    struct sctp_endpoint_config of_channels = SCTP_CHANNELS_CONFIG(5000 + count, 5001 + count);
    struct sctp_channel_parameters parameters = SCTP_CHANNEL_PARAMETERS_INIT;
    if (sctp_endpoint_caller(&e, &of_channels) != SCTP_EP_OK || sctp_channels_over(&c, &e, true) != SCTP_EP_OK) return 1;
    if (sctp_channels_open_negotiated(&c, &parameters, 0) != SCTP_EP_NOT_OPEN) return 1;
    sctp_channels_free(&c);
    return sctp_endpoint_abi() != SCTP_EP_ABI;
}
PLUS
    "${CXX:-c++}" -std=c++11 -Wall -Wextra -Werror -I"$prefix/include" -o "$at/plus" "$at/plus.cc" "${static[@]}"
    "$at/plus"
    say "the headers in C++"
fi
if there pkg-config "pkg-config"; then
    # shellcheck disable=SC2046
    "$cc" -o "$at/by_package" tests/c/layout.c $(PKG_CONFIG_PATH=$prefix/lib/pkgconfig pkg-config --cflags --libs sctp_endpoint)
    LD_LIBRARY_PATH=$prefix/lib "$at/by_package"
    ./install.sh "${by[@]}" --archive "$at/archive.tar.gz"
    mkdir "$at/unpacked"
    tar -C "$at/unpacked" --strip-components=1 -xzf "$at/archive.tar.gz"
    # shellcheck disable=SC2046
    "$cc" -o "$at/by_archive" tests/c/layout.c $(PKG_CONFIG_PATH=$at/unpacked/lib/pkgconfig pkg-config --cflags --libs sctp_endpoint)
    LD_LIBRARY_PATH=$at/unpacked/lib "$at/by_archive"
    say "pkg-config, of a prefix and of an archive: $(PKG_CONFIG_PATH=$prefix/lib/pkgconfig pkg-config --variable=build sctp_endpoint)"
fi

# ---- two ends over a lossy link, in four modes
"$cc" "${flags[@]}" -o "$at/lossy" examples/c/lossy.c "${static[@]}"
for mode in 0 1 2 3; do
    for lost in 0 10 30; do
        told=$("$at/lossy" $((mode * 10 + lost + 1)) 500 "$lost" "$mode"); say "mode $mode, $lost percent lost: $told"
    done
done
for flag in address,undefined; do
    if "$cc" "${flags[@]}" -fsanitize=$flag -fno-sanitize-recover=all -o "$at/sanitized" examples/c/lossy.c "${static[@]}" 2> /dev/null; then
        "$at/sanitized" 5 200 10 3 > /dev/null
        for tried in layout channels; do
            "$cc" "${flags[@]}" -fsanitize=$flag -fno-sanitize-recover=all -o "$at/sanitized" tests/c/$tried.c "${static[@]}"
            "$at/sanitized"
        done
        say "under -fsanitize=$flag"
    else
        say "left out: -fsanitize=$flag"
    fi
done
if there valgrind "valgrind"; then
    # LLVM compares fields of a variant before it knows that the value has it, and then drops the result: valgrind can't know that
    memcheck=(valgrind -q --error-exitcode=1 --leak-check=full ${1:+--undef-value-errors=no})
    "${memcheck[@]}" "$at/lossy" 7 50 10 3 > /dev/null
    "${memcheck[@]}" "$at/layout"
    "${memcheck[@]}" "$at/channels"
    say "under ${memcheck[*]}: nothing found, nothing leaks"
    tests/c/counts.sh "$prefix" "$@"
fi

# ---- beside usrsctp in one process
if echo '#include <usrsctp.h>' | "$cc" -E - > /dev/null 2>&1; then
    "$cc" "${flags[@]}" -o "$at/usrsctp" tests/c/usrsctp/*.c "${static[@]}" -lusrsctp
    tried=0
    exchange() { told=$("$at/usrsctp" "$@") || { say "usrsctp $*: $told"; exit 1; }; tried=$((tried + 1)); }
    for mode in data data-pr idata idata-pr; do
        for caller in ours theirs both; do
            # shellcheck disable=SC2086
            for link in "0 0" "0 30" "10 10" "30 30"; do
                for ending in ours-shuts theirs-shuts both-shut ours-aborts theirs-aborts; do exchange 1 $caller $mode $mode $link wide $ending; done
                for ending in ours-shuts theirs-shuts both-shut; do exchange 2 $caller $mode $mode $link narrow $ending; done
            done
            for other in data data-pr idata idata-pr; do exchange 3 $caller $mode $other 10 10 wide ours-shuts; done
        done
    done
    say "usrsctp in one process: $tried exchanges, as wanted"
    # of what leaks and is read uninitialised, what isn't usrsctp's own
    if "$cc" "${flags[@]}" -fsanitize=address,undefined -fno-sanitize-recover=all -o "$at/sanitized" tests/c/usrsctp/*.c "${static[@]}" -lusrsctp 2> /dev/null; then
        for mode in data data-pr idata idata-pr; do ASAN_OPTIONS=detect_leaks=0 "$at/sanitized" 4 theirs $mode $mode 10 10 wide ours-shuts > /dev/null; done
        say "the same under sanitizers, an exchange a mode"
    fi
    if there valgrind "usrsctp under valgrind"; then
        printf '{\n theirs\n Memcheck:%s\n ...\n obj:*/libusrsctp.so*\n}\n' Leak Cond Value4 Value8 > "$at/theirs"
        "${memcheck[@]}" --suppressions="$at/theirs" "$at/usrsctp" 4 ours idata-pr idata-pr 10 10 wide ours-shuts > /dev/null
        say "the same under valgrind, one exchange"
    fi
else
    say "left out, no usrsctp.h (libusrsctp-dev): usrsctp in one process"
fi

# ---- one endpoint over UDP, twice
"$cc" "${flags[@]}" -o "$at/udp" examples/c/udp.c "${static[@]}"
seq 1 2000 > "$at/lines"
port() { # a port of UDP that nobody has
    local it
    while it=$((20000 + RANDOM % 12000)); grep -qi ":$(printf %04X "$it") " /proc/net/udp /proc/net/udp6 2> /dev/null; do :; done
    echo "$it"
}
listen() { # WORD..: a listener at the port `to`, of which all that it prints is kept
    from=$(port) to=$(port)
    "$@" listen "$to" > "$at/received" 2> "$at/listener" &
    listener=$!
    sleep 1
}
heard() { wait "$listener" && diff "$at/lines" "$at/received" && say "2000 lines over UDP: $1"; }
listen "$at/udp"
timeout 60 "$at/udp" call "$from" 127.0.0.1 "$to" < "$at/lines" 2> "$at/caller"
heard "C to C"

# ---- a server of many peers; both programs over UDP as plain C11
for program in udp server; do "$cc" -std=c11 -Wall -Wextra -Wpedantic -Werror -fsyntax-only -I"$prefix/include" examples/c/$program.c; done
if there python3 "a server of many peers"; then
    "$cc" "${flags[@]}" -o "$at/server" examples/c/server.c "${static[@]}"
    PYTHONPATH=bindings/python SCTP_ENDPOINT_LIBRARY=$prefix/lib/libsctp_endpoint.so.1 python3 -B tests/c/peers.py "$at/server" 100 > "$at/peers" || { cat "$at/peers"; exit 1; }
    sed 's/^/c: /' "$at/peers"
fi

# ---- the page's first program, and its trace: a header of 24 bytes, and 16 before each packet
block() { awk -v wanted="$1" '/^```c$/ { inside = ++count == wanted; next } /^```$/ { inside = 0 } inside' docs/C.md; }
block 1 > "$at/first.c"
"$cc" "${flags[@]}" -o "$at/first" "$at/first.c" "${static[@]}"
[ "$("$at/first")" = "Hi" ]
say "the first program of docs/C.md: $(wc -l < "$at/first.c") lines"
{
    printf '#include <stdint.h>\n#include <stdio.h>\n'
    block 3
    echo 'int main(void) { uint8_t packet[12] = { 0 }; trace(stdout, 1500, packet, 12); trace(stdout, 2000, packet, 12); return 0; }'
} > "$at/trace.c"
"$cc" "${flags[@]}" -o "$at/trace" "$at/trace.c"
"$at/trace" > "$at/trace.pcap"
[ "$(wc -c < "$at/trace.pcap")" = 80 ]
[ "$(od -An -tu4 -j20 -N12 "$at/trace.pcap" | tr -s ' ')" = " 248 1 500000" ]
say "the trace of docs/C.md"

# ---- beside another library that is Rust's
if there cargo "another Rust library beside this one"; then tests/c/beside.sh "$prefix"; fi

# ---- from Rust and Python
if there cargo "bindings/rust"; then
    (cd bindings/rust && SCTP_ENDPOINT_PREFIX=$prefix CARGO_TARGET_DIR=$at/rust cargo test --quiet --offline > "$at/rust.log" 2>&1) || { cat "$at/rust.log"; exit 1; }
    say "bindings/rust: $(grep -c '^test result: ok' "$at/rust.log") suites"
    (cd bindings/rust && SCTP_ENDPOINT_PREFIX=$prefix CARGO_TARGET_DIR=$at/rust cargo build --quiet --offline --example udp)
    listen "$at/udp"
    timeout 60 "$at/rust/debug/examples/udp" call "$from" "127.0.0.1:$to" < "$at/lines" 2> "$at/caller"
    heard "Rust to C"
fi
if there python3 "bindings/python"; then
    (cd bindings/python && SCTP_ENDPOINT_LIBRARY=$prefix/lib/libsctp_endpoint.so.1 python3 -B -m unittest -q 2> "$at/python.log") || { cat "$at/python.log"; exit 1; }
    say "bindings/python"
    if python3 -m pip --version > /dev/null 2>&1; then
        PIP_ROOT_USER_ACTION=ignore python3 -m pip install --quiet --no-index --target "$at/site" bindings/python
        (cd "$at" && PYTHONPATH=$at/site SCTP_ENDPOINT_LIBRARY=$prefix/lib/libsctp_endpoint.so.1 python3 -B -c 'import sctp_channels, sctp_endpoint; sctp_endpoint.version()')
        say "bindings/python by pip"
    fi
    export SCTP_ENDPOINT_LIBRARY=$prefix/lib/libsctp_endpoint.so.1
    listen python3 -B bindings/python/udp.py
    timeout 60 "$at/udp" call "$from" 127.0.0.1 "$to" < "$at/lines" 2> "$at/caller"
    heard "C to Python"
    listen "$at/udp"
    timeout 60 python3 -B bindings/python/udp.py call "$from" 127.0.0.1 "$to" < "$at/lines" 2> "$at/caller"
    heard "Python to C"
    listen python3 -B bindings/python/over_asyncio.py
    timeout 60 python3 -B bindings/python/over_asyncio.py call "$from" 127.0.0.1 "$to" < "$at/lines" 2> "$at/caller"
    heard "Python to Python, by asyncio"
fi
say "all passed"
