#!/bin/sh
# What the library costs: instructions by callgrind, processor time, bytes. `./run.sh` names its parts; docs in README.md.
#
#   ./run.sh all [--cargo | --proved]    writes the tables of README.md anew, over the library for C as cargo builds it of the erased sources, or as `rt lib`
#                                        proved and built it (crates/sctp_c/out): ten minutes. Without a word: the proved one, if it is there
#   ./run.sh PART [--cargo | --proved]   prints the tables of one part: messages, time, memory, packets, growth; or looks for dear packets: dearest
#   ./run.sh PART                        counts calls of single crates in Rattle, which the toolchain proves and builds first: crc32c, receiver, sender, endpoint,
#                                        groups, receiver_growth, sender_growth
#   ./run.sh usrsctp                     counts a message over two endpoints of usrsctp, of Debian's library and, if USRSCTP_SOURCE names the folder of its
#                                        sources (`apt-get source libusrsctp`), of these at -O2, which `all` and `messages` count again and `time` needs
#
# It needs valgrind, a C compiler and Python; cargo for --cargo; `rt` for the proved library and for calls in Rattle.
set -e
here=$(cd "$(dirname "$0")" && pwd)
usage() { sed -n '2,/^$/{/^#/s/^# \{0,1\}//p;}' "$0"; }
case ${1-} in '' | -h | --help) usage; exit 0 ;; esac
for tool in valgrind cc python3; do command -v "$tool" > /dev/null || { echo "bench/run.sh: there is no $tool" >&2; exit 2; }; done
work=$(mktemp -d)
trap 'rm -rf "$work"' EXIT

# a crate as it is, but what a check keeps for its next run
take() {
    mkdir "$work/crates/$1"
    (cd "$here/../crates/$1" && tar -c --exclude=./out/incremental .) | tar -x -C "$work/crates/$1"
}

# a repository of its own: the crates that the program named first stands on, as they are, and the program; it is built, once
build() {
    program=$1
    shift
    built=$work/crates/$program/out/$program
    [ ! -x "$built" ] || return 0
    mkdir -p "$work/crates/$program/src"
    : > "$work/crates.txt"
    for crate in "$@"; do
        [ -d "$work/crates/$crate" ] || take "$crate"
        grep "^$crate:" "$here/../crates.txt" >> "$work/crates.txt"
    done
    echo "$program: $*" >> "$work/crates.txt"
    cp "$here/$program.rattle" "$work/crates/$program/src/main.rt"
    cp "$here/../HANDLES" "$work/HANDLES"
    (cd "$work/crates/$program" && rt run -- none 1 1 > "$work/log" 2>&1) || { cat "$work/log" >&2; exit 1; }
}

# the instructions of a run of these words, of one function where `within` names it
count() {
    valgrind --tool=callgrind ${within:+"--toggle-collect=$within"} --callgrind-out-file="$work/out" "$@" 2>&1 > /dev/null | sed -n 's/.*Collected : \([0-9]*\).*/\1/p'
}

# what one of them takes: NAME FEW MANY PER PROGRAM [WORD], the difference of two runs, so that the beginning and the end fall away
each() {
    name=$1 few=$2 many=$3 per=$4
    shift 4
    low=$(count "$@" "$few")
    high=$(count "$@" "$many")
    echo "$low $high" | awk -v name="$name" -v turns=$((many - few)) -v per="$per" '{ printf "%s: %.2f instructions\n", name, ($2 - $1) / turns / per }'
}

crc32c() {
    build crc32c sctp_model sctp_values sctp_wire sctp_packet
    cc -O2 -o "$work/c" "$here/crc32c.c"
    each 'a byte of crc32c' 1000 3000 1472 "$built"
    each 'a byte of crc32c in C' 1000 3000 1472 "$work/c"
}

receiver() {
    build receiver sctp_model sctp_values sctp_safety sctp_serial sctp_wire sctp_reconfig sctp_framing sctp_chains sctp_sequence sctp_recv
    for range in '1000 2000' '10000 20000' '100000 200000'; do
        # shellcheck disable=SC2086
        each "a message of 64 bytes in order ($range)" $range 1 "$built" order
        # shellcheck disable=SC2086
        each "a message of 64 bytes in swapped pairs ($range)" $range 1 "$built" swapped
    done
    each 'a message of 65,536 bytes, its 47 fragments backwards' 10 20 1 "$built" backwards
    each 'a SACK with 16,383 runs' 1 11 1 "$built" sack
}

sender() {
    build sender sctp_model sctp_values sctp_safety sctp_sequence sctp_serial sctp_wire sctp_framing sctp_packet sctp_send
    for range in '1000 2000' '10000 20000' '100000 200000'; do
        # shellcheck disable=SC2086
        each "a message of 64 bytes queued, sent and acknowledged ($range)" $range 1 "$built" sent
    done
    for range in '1008 2016' '10008 20016' '100008 200016'; do
        # shellcheck disable=SC2086
        each "a message of 64 bytes queued, sent and acknowledged, 18 to a packet ($range)" $range 1 "$built" packed
    done
    for range in '1088 2176' '10064 20128' '100096 200192'; do
        # shellcheck disable=SC2086
        each "a message of 64 bytes as I-DATA over 32 streams, 17 to a packet ($range)" $range 1 "$built" streams
    done
    for range in '740 1480' '7400 14800'; do
        # shellcheck disable=SC2086
        each "a message of one byte filled, none acknowledged ($range)" $range 1 "$built" window
    done
    each 'a SACK of 64 blocks over 32,767 outstanding, each block one index further on' 10 60 1 "$built" sacks
    # the window holds 32,767, and one more waits
    "$built" window 32768
}

# the crates that an endpoint stands on
end='sctp_model sctp_values sctp_terms sctp_safety sctp_outcomes sctp_serial sctp_wire sctp_reconfig sctp_cookie sctp_framing sctp_packet sctp_opening sctp_chains sctp_sequence sctp_recv sctp_send sctp_congestion sctp_association sctp_endpoint'

# what an endpoint adds to a message: the same packets over two endpoints, and over a sender and a receiver side by side
endpoint() {
    # shellcheck disable=SC2086
    build endpoint $end
    for over in halves ends interleaved controlled resetting; do
        each "$over: a message of 64 bytes, 9.5 to a packet" 100 300 19 "$built" "$over" 19 64 1
        each "$over: a message of 64 bytes, one to a packet" 1000 3000 1 "$built" "$over" 1 64 1
        each "$over: a message of 16,384 bytes in 12 fragments, with the making of its bytes" 50 150 1 "$built" "$over" 1 16384 1
    done
    each 'of it the making of its bytes' 50 150 1 "$built" bytes 1 16384 1
    for over in ends interleaved; do
        for streams in 32 1024; do
            each "$over: a message of 64 bytes, 9.5 to a packet, on the last of $streams streams" 100 300 19 "$built" "$over" 19 64 "$streams"
        done
    done
}

# the same by what runs
groups() {
    # shellcheck disable=SC2086
    build endpoint $end
    while read -r name over many size few most; do
        for turns in $few $most; do
            valgrind --tool=callgrind --callgrind-out-file="$work/out.$turns" "$built" "$over" "$many" "$size" 1 "$turns" > "$work/log" 2>&1
        done
        python3 -B "$here/groups.py" "$name" $(((most - few) * many)) "$work/out.$few" "$work/out.$most"
    done << CASES
9.5-to-a-packet ends 19 64 100 300
as-I-DATA interleaved 19 64 100 300
one-to-a-packet ends 1 64 1000 3000
16-KiB ends 1 16384 50 150
CASES
}

# a message over two ends of usrsctp, built so: NAME PROGRAM
usrsctp_messages() {
    each "$1: a message of 64 bytes, 9.5 to a packet" 100 300 19 "$2" 19 64
    each "$1: the same as I-DATA" 100 300 19 "$2" i 19 64
    each "$1: a message of 64 bytes, one to a packet" 1000 3000 1 "$2" 1 64
    each "$1: the same, every second packet acknowledged" 1000 3000 1 "$2" d 1 64
    each "$1: a message of 16,384 bytes in 12 fragments" 50 150 1 "$2" 1 16384
    each "$1: the same, every second packet acknowledged" 50 150 1 "$2" d 1 16384
}

# the same work over usrsctp; its sources with what its own build defines
usrsctp() {
    # a long copy by `rep movsb` would count as an instruction a byte
    export GLIBC_TUNABLES=glibc.cpu.x86_rep_movsb_threshold=1000000000:glibc.cpu.x86_rep_stosb_threshold=1000000000
    cc -std=c99 -D_DEFAULT_SOURCE -O2 -o "$work/usrsctp" "$here/usrsctp.c" -lusrsctp
    usrsctp_messages 'as Debian builds it' "$work/usrsctp"
    if [ -n "$USRSCTP_SOURCE" ]; then
        sources=$USRSCTP_SOURCE/usrsctplib
        cc -std=c99 -pthread -O2 -Wno-address-of-packed-member -D__Userspace__ -DSCTP_PROCESS_LEVEL_LOCKS -DSCTP_SIMPLE_ALLOCATOR -DSCTP_DEBUG -DINET -DINET6 \
            -D_GNU_SOURCE -DHAVE_STDATOMIC_H -DHAVE_SYS_QUEUE_H -DHAVE_LINUX_IF_ADDR_H -DHAVE_LINUX_RTNETLINK_H -DHAVE_NETINET_IP_ICMP_H -I"$sources" \
            -o "$work/usrsctp_o2" "$here/usrsctp.c" "$sources"/*.c "$sources"/netinet/*.c "$sources"/netinet6/*.c
        usrsctp_messages 'at -O2' "$work/usrsctp_o2"
    fi
    unset GLIBC_TUNABLES
}

# what a call takes at a size, twice and four times that: NAME SIZE CALLS OF PROGRAM WORD ..; a call that costs its own work alone takes as much at each of
# them. OF is `call`, or `kept`: the cost is told by call, or by call and by what is kept
grows() {
    name=$1 size=$2 calls=$3 of=$4
    shift 4
    costs=
    for times in 1 2 4; do
        parts=$calls
        [ "$of" = call ] || parts=$((calls * size * times))
        none=$(count "$@" $((size * times)) 0)
        some=$(count "$@" $((size * times)) "$calls")
        costs="$costs $none $some $parts"
    done
    echo "$costs" | awk -v name="$name" -v n="$size" '{
        a = ($2 - $1) / $3; b = ($5 - $4) / $6; c = ($8 - $7) / $9
        printf "%s, at %d, %d and %d: %.0f, %.0f, %.0f instructions, %.2f and %.2f times\n", name, n, 2 * n, 4 * n, a, b, c, b / a, c / b
    }'
}

# calls of a receiver
receiver_growth() {
    build receiver_growth sctp_model sctp_values sctp_safety sctp_serial sctp_wire sctp_reconfig sctp_framing sctp_chains sctp_sequence sctp_recv
    for format in data i-data; do
        # what is freed at the program's end jumps
        within='sctp_recv::receiver::Receiver::on_data*'
        grows "$format: a fragment before so many of its message" 2000 1000 call "$built" "$format" backwards
        grows "$format: a fragment between the last two of so many chains of its message" 2000 100 call "$built" "$format" inwards
        grows "$format: a fragment between two amid so many chains of its message" 2000 1000 call "$built" "$format" amid
        within=
        grows "$format: a fragment between two of so many chains of its message" 2000 100 call "$built" "$format" fragments
        grows "$format: a fragment between two of so many chains of its message, while a later message waits whole" 2000 100 call "$built" "$format" later
        grows "$format: a fragment of the message that is waited for, while so many later messages wait whole" 1100 100 call "$built" "$format" behind
        grows "$format: a gap closed amid so many runs" 2000 100 call "$built" "$format" gaps
        grows "$format: a FORWARD at so many streams" 256 20 call "$built" "$format" forwards
        grows "$format: a FORWARD with an entry for each of so many streams, by entry" 256 20 kept "$built" "$format" entries
        grows "$format: a FORWARD with so many entries for 32 streams, by entry" 80 20 kept "$built" "$format" shared
        grows "$format: a FORWARD while a part lies on each of so many streams" 256 20 call "$built" "$format" loose
    done
    # under I-DATA they go by number; what is freed at the program's end jumps
    within='sctp_recv::receiver::Receiver::on_forward*'
    grows 'data: a FORWARD that leaves the part on one of so many streams behind' 256 20 call "$built" data left
    for format in data i-data; do
        grows "$format: a FORWARD that jumps over so many messages in part on 32 streams, by message" 4000 1 kept "$built" "$format" parts
        grows "$format: the same, but for the last one on each stream, by message" 4000 1 kept "$built" "$format" parts-but-one
    done
    within=
}

# calls of a sender
sender_growth() {
    build sender_growth sctp_model sctp_values sctp_safety sctp_sequence sctp_serial sctp_wire sctp_framing sctp_packet sctp_send
    for format in data i-data; do
        grows "$format: expire, all of so many late, by message" 1024 1 kept "$built" "$format" late
        grows "$format: expire, none of so many late" 1024 100 call "$built" "$format" early
        for size in 20 200 1024 4096; do
            grows "$format: expire, one of so many late" "$size" 20 call "$built" "$format" one-late
        done
        grows "$format: expire, one of so many late that wait" 250 20 call "$built" "$format" one-late-waits
        grows "$format: expire, all of so many late that wait, by message" 250 1 kept "$built" "$format" late-waits
        grows "$format: expire, every other one of so many late that wait, by message that waits" 250 1 kept "$built" "$format" half-late-waits
        grows "$format: abandon, one of so many outstanding" 1024 20 call "$built" "$format" abandon
        grows "$format: abandon, one of so many that wait" 250 20 call "$built" "$format" withdraw
        grows "$format: acknowledged, of one of so many outstanding" 1024 20 call "$built" "$format" acknowledged
        grows "$format: point, behind so many abandoned" 1024 100 call "$built" "$format" point
        grows "$format: put_forward, of so many abandoned on 32 streams, by message" 1024 20 kept "$built" "$format" forward
        grows "$format: a SACK that changes nothing and the FORWARD again, of so many abandoned on 32 streams" 8000 20 call "$built" "$format" forward-again
        grows "$format: put_forward, of 1,000 abandoned in front of so many on 32 streams" 2048 20 call "$built" "$format" forward-front
        grows "$format: put_forward, of 1,000 abandoned on one of so many streams" 256 20 call "$built" "$format" forward-few
        # what is freed at the program's end jumps
        within='sender_growth::fill::*'
        grows "$format: fill, a packet of 64-byte messages, so many waiting on one of 32 streams" 250 8 call "$built" "$format" fill
        grows "$format: fill, a packet of 64-byte messages, 900 waiting on one of so many streams" 256 8 call "$built" "$format" fill-streams
        within=
        grows "$format: a SACK of 64 blocks over so many, 128 change" 8000 20 call "$built" "$format" blocks
        grows "$format: a SACK of 365 blocks over so many, 730 change" 8000 20 call "$built" "$format" more-blocks
        for size in 64 1024 8191; do
            grows "$format: a SACK that misses one of so many" "$size" 20 call "$built" "$format" missed
        done
        grows "$format: a SACK that misses all but the last of so many, by message" 8191 1 kept "$built" "$format" missed-all
        # what is freed at the program's end jumps
        within='sender_growth::fill::*'
        grows "$format: fill, a packet of retransmissions of one byte, so many marked" 8000 8 call "$built" "$format" again
        within=
        grows "$format: SACKs that cover nothing and all but the first of so many by turns, by entry" 4000 2 kept "$built" "$format" turns
        grows "$format: the same if each 64th message was abandoned, by entry" 4000 2 kept "$built" "$format" turns-some
        grows "$format: the same if each message was abandoned, by entry" 4000 2 kept "$built" "$format" turns-none
    done
    # under DATA no message is ever in part
    grows 'i-data: fill, one message in part on one of so many streams' 256 20 call "$built" i-data fill-part
    grows 'i-data: abandon, of another, one message in part on one of so many streams' 256 20 call "$built" i-data abandon-part
    grows 'i-data: acknowledged, of another, one message in part on one of so many streams' 256 20 call "$built" i-data acknowledged-part
    grows 'i-data: expire, one late of so many in part, each on a stream of its own' 256 20 call "$built" i-data expire-part
}

# the library for C in $work/prefix, as the word says, and how it was built
library() {
    how=$1
    [ -n "$how" ] || { [ -f "$here/../crates/sctp_c/out/libsctp_c.a" ] && how=--proved || how=--cargo; }
    case $how in
    --proved) "$here/../install.sh" "$work/prefix" > "$work/log" ;;
    --cargo) CARGO_TARGET_DIR="$work/target" "$here/../install.sh" --cargo "$work/prefix" > "$work/log" 2>&1 ;;
    *) echo "bench/run.sh: $how: --cargo or --proved" >&2; exit 2 ;;
    esac || { cat "$work/log" >&2; exit 1; }
    built=$(sed -n 's/^build=//p' "$work/prefix/lib/pkgconfig/sctp_endpoint.pc")
}

# looks for dear packets for some minutes, and counts the dearest of each kind that it found
dearest() {
    cc -O2 -I"$work/prefix/include" -o "$work/dearest" "$here/dearest.c" "$work/prefix/lib/libsctp_endpoint.a" "$work/prefix/lib/libsctp_endpoint_malloc.a"
    "$work/dearest" search 300 1 > "$work/found"
    within=counted
    sort -rn "$work/found" | awk -F': ' 'NF == 2 && !seen[$2]++' | head -n 20 | while read -r line; do
        seed=${line#*seed }
        echo "$line: $(count "$work/dearest" "${seed%%:*}" heard) instructions"
    done
    within=
    tail -n 1 "$work/found"
}

case $1 in
all) library "$2"; python3 -B "$here/tables.py" "$work/prefix" "$built" ;;
messages | time | memory | packets | growth) library "$2"; python3 -B "$here/tables.py" "$work/prefix" "$built" "$1" ;;
dearest) library "$2"; dearest ;;
crc32c | receiver | sender | endpoint | groups | receiver_growth | sender_growth | usrsctp) "$1" ;;
*) echo "bench/run.sh: $1: no part" >&2; usage >&2; exit 2 ;;
esac
