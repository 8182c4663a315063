#!/bin/sh
# Shows what the launchers ./sctp-trace, ./sctp-end and ./sctp-look do in each order of commands: before a build, after one, and after
# sources have changed; and how each program ends where something is wrong: its status, and what goes to standard error. To be run by
# hand: tests/launcher.sh. It works on a copy of the repository, proves and builds the programs there (with what `out/` keeps some
# minutes, else half an hour), prints a line for each order, and ends with 0 if all are as they should be. An order that runs the
# sources takes a minute. tests/launcher.sh unbuilt: the orders before a build alone.

root=$(CDPATH='' cd -- "$(dirname -- "$0")/.." && pwd -P) || exit 3
room=$(mktemp -d) || exit 3
trap 'rm -rf -- "$room"' EXIT
trap 'exit 130' HUP INT TERM
cp -a -- "$root" "$room/copy" && cd -- "$room/copy" || exit 3
rows=crates/sctp_rows/stdout
failed=0

script=examples/one-message.script
printf 'pair 1500 1400 65536 1 data\nopen\n' >"$room/many"
awk 'BEGIN { for (i = 0; i < 120000; i++) print "take B 0" }' >>"$room/many"
# what the rules say of bytes: a packet, chunks, and the first fault of others
hi=0003001200000001000000000000000048690000
data='DATA BE tsn 1 stream 0 ssn 0 id 0 data 4869'
printf 'packet 5000 5001 tag 00000007\n%s\n' "$data" >"$room/packet"
printf '%s\nUNKNOWN 63 flags 00 value -\n' "$data" >"$room/chunks"
printf 'fault 2\n' >"$room/checksum"
printf 'fault 3 4 at 20\n' >"$room/body"
printf 'fault hex\n' >"$room/hexadecimal"
: >"$room/nothing"
bytes=$(printf 'ru\377n')
end='caller 1500 1400 65536 1 data 5000 5001'

# of NAME CRATE: the launcher and the program that the orders below are for.
of() { launched=$1 main=crates/$2; }

report() {
    if [ "$1" = yes ]; then
        printf 'ok      %s\n' "$2"
    else
        printf 'FAILED  %s\n' "$2"
        failed=1
    fi
}

# so TEXT COMMAND..: reports whether the command ends with 0.
so() {
    text=$1
    shift
    if "$@" >/dev/null 2>&1; then report yes "$text"; else report no "$text"; fi
}

# Runs the launcher over $input, with a trace of what it does.
traced() {
    BASH_XTRACEFD=9 bash -x "./$launched" "$@" <"$input" >"$room/output" 2>"$room/faults" 9>"$room/traced"
    ended=$?
}

# order TEXT STATUS INPUT WORDS..: runs the launcher and compares the exit status; the outputs stay in $room/output and $room/faults.
order() {
    text="$launched: $1" status=$2 input=$3
    shift 3
    traced "$@"
    if [ "$ended" = "$status" ]; then report yes "$text"; else report no "$text: status $ended, and not $status"; fi
}

says() { so "  and says: $1" grep -q -- "$1" "$room/faults"; }
says_just() { printf '%s\n' "$1" >"$room/said" && so "  and says just: $1" cmp -s -- "$room/said" "$room/faults"; }
says_nothing() { so '  and says nothing' [ ! -s "$room/faults" ]; }
writes() { so '  and writes just that' cmp -s -- "$1" "$room/output"; }

# which program was run, and whether the contents of the sources were read
by_program() { so '  by the proved program' grep -q "^+ exec .*/$main/out/" "$room/traced"; }
by_sources() { so '  by the sources' grep -q '^+ rt try' "$room/traced"; }
by_none() { if grep -q '^+ rt try\|^+ exec /' "$room/traced"; then report no '  but something is run'; else report yes '  and nothing is run'; fi; }
by_contents() { so '  by the contents' grep -q '^+ is_same' "$room/traced"; }
by_times() { if grep -q '^+ is_same' "$room/traced"; then report no '  not by times and sizes alone'; else report yes '  by times and sizes alone'; fi; }

# The words of a row, one by one, then $status and $room/row as the program has them; and whether the launcher answers the same.
wrong_row() {
    sed -n "/^= $1\$/,/^status 1\$/p" $rows >"$room/case"
    sed -n 's/^! \{0,1\}//p' "$room/case" >"$room/row"
    set -- "$1"
    words=$(sed -n "s/^\\$ $launched \{0,1\}//p" "$room/case" | sed 's/ /\n/g')
    if grep -q "^\\$ $launched " "$room/case"; then
        while IFS= read -r word; do set -- "$@" "$word"; done <<END
$words
END
    fi
    row=$1
    shift
    "./$launched" "$@" </dev/null >"$room/output" 2>"$room/faults"
    ended=$?
    [ $ended = 1 ] && [ -s "$room/row" ] && cmp -s "$room/row" "$room/faults" && [ ! -s "$room/output" ]
    so "$launched: wrong words, $row: status 1, and just that row's text" [ $? = 0 ]
}

# A request for help is answered by the forms of this row, on standard output; nothing is run, whatever is built.
helped() {
    sed -n "/^= $1\$/,/^status 1\$/s/^! \{0,1\}//p" $rows | sed -n '/^usage:/,$p' >"$room/forms"
    for word in --help -h help; do
        order "asked for help by $word" 0 /dev/null $word
        writes "$room/forms"
        says_nothing
        by_none
    done
}

# The rows of this program whose words are wrong, but for help.
wrong_rows() {
    awk -v program="$launched" '/^= /{name = substr($0, 3); said = 0} /^! /{said = 1}
        /^\$ /{mine = $2 == program; asks = / (--help|-h)( |$)/ || NF == 3 && $3 == "help"}
        /^status 1$/{if (mine && said && !asks) print name}' $rows
}

# Each of these rows; before a build those that the launcher knows without running the sources.
all_wrong() {
    wrong_rows | if [ "$1" = built ]; then cat; else grep -v 'flag\|version'; fi >"$room/names"
    while IFS= read -r name <&3; do wrong_row "$name"; done 3<"$room/names"
}

not_utf8() {
    order "a word that isn't UTF-8, $1" 1 /dev/null "$bytes"
    says "^$launched: a word isn't UTF-8"
    says '^usage:'
}

trace_orders() {
    order "one message over, $1" 0 $script run
    writes $main/stdout
    says_nothing
    order "a faulty line, $1" 2 crates/sctp_trace_fault/stdin run
    writes crates/sctp_trace_fault/stdout
    says_just 'line 8: 2'
    order "a packet, $1" 0 /dev/null packet 13881389000000078bb4efbb$hi
    writes "$room/packet"
    order "chunks, $1" 0 /dev/null chunks ${hi}3f000004
    writes "$room/chunks"
    order "no chunk, $1" 0 /dev/null chunks ''
    writes "$room/nothing"
    order "a packet with another checksum, $1" 2 /dev/null packet 138813890000000700000000$hi
    writes "$room/checksum"
    order "chunks of which the second isn't right, $1" 2 /dev/null chunks ${hi}0e000005ff000000
    writes "$room/body"
    order "no hexadecimal digits, $1" 2 /dev/null packet Hi
    writes "$room/hexadecimal"
    ln -sf "$room/copy/sctp-trace" "$room/linked"
    "$room/linked" run <$script >"$room/output" 2>/dev/null
    so "through a symbolic link, $1" [ $? = 0 ]
    writes $main/stdout
    { head -n 3 $script && sleep 3 && tail -n +4 $script; } | ./sctp-trace run >"$room/output" 2>/dev/null
    so "input that pauses, $1" [ $? = 0 ]
    writes $main/stdout
}

look_orders() {
    order "a picture, $1" 0 $main/stdin
    writes $main/stdout
    says_nothing
    order "a faulty line, $1" 2 crates/sctp_look_fault/stdin
    writes crates/sctp_look_fault/stdout
    says_just 'line 8: 2'
}

# An end answers each line before the next one comes; what comes through a pipe says no more.
end_orders() {
    order 'its stored run' 0 $main/stdin $end
    writes $main/stdout
    says_nothing
    mkfifo "$room/lines" "$room/answers"
    ./sctp-end $end <"$room/lines" >"$room/answers" 2>/dev/null &
    exec 7>"$room/lines" 8<"$room/answers"
    echo connect 7 100 >&7 && answer=$(timeout 10 head -n 1 <&8)
    so 'sctp-end: a line is answered before the next one comes' [ -n "$answer" ]
    exec 7>&- 8<&-
    wait
}

full_disk() {
    "./$launched" "$@" <$main/stdin >/dev/full 2>/dev/null
    so "$launched: a full disk, built" [ $? = 3 ]
}

unbuilt() {
    of sctp-trace sctp_trace_main
    trace_orders 'nothing built'
    order 'nothing built: the sources are run' 0 $script run
    by_sources
    order 'nothing built, wrong words' 1 /dev/null packet
    by_none
    all_wrong unbuilt
    helped 'no command'
    not_utf8 'nothing built'
    order 'much output, nothing built' 3 "$room/many" run
    says 'the limit on each'
    says 'rt run'
    order_of_a_broken_source
    of sctp-look sctp_look_main
    look_orders 'nothing built'
    by_sources
    wrong_row 'no width at all'
    helped 'no width at all'
    not_utf8 'nothing built'
    of sctp-end sctp_end_main
    mkfifo "$room/silent" && exec 9<>"$room/silent"
    order 'nothing built: it reads nothing' 3 "$room/silent" $end
    by_none
    says "(cd .*$main && rt run -- $end <stdin) proves and builds the program"
    order 'nothing built, wrong words' 3 /dev/null peer
    helped 'wrong words: no words'
    exec 9>&-
}

order_of_a_broken_source() {
    cp -p crates/sctp_trace/src/script.rt "$room/source"
    printf 'fn unfinished(\n' >>crates/sctp_trace/src/script.rt
    order "a source that doesn't compile" 3 $script run
    says "the sources can't be run"
    cp -p "$room/source" crates/sctp_trace/src/script.rt
}

built() {
    of sctp-trace sctp_trace_main
    trace_orders built
    all_wrong built
    not_utf8 built
    full_disk run
    order 'much output, built' 0 "$room/many" run
    printf '%s\n%s' 13881389000000078bb4efbb$hi 138813890000000700000000$hi >"$room/packets"
    while read -r packet || [ -n "$packet" ]; do ./sctp-trace packet "$packet"; done <"$room/packets" >"$room/output"
    cat "$room/packet" "$room/checksum" >"$room/wanted"
    writes "$room/wanted"
    of sctp-look sctp_look_main
    look_orders built
    all_wrong built
    not_utf8 built
    full_disk svg
    of sctp-end sctp_end_main
    end_orders
    all_wrong built
    not_utf8 built
    full_disk $end
}

# changed TEXT INPUT WORDS..: the orders of this launcher as a source that it goes by is touched, changed and changed back.
changed() {
    input=$1 else=$2 source=$3
    shift 3
    order 'built: the program is run' 0 "$input" "$@"
    by_program
    sleep 3
    order 'built a while ago: the contents are read once more' 0 "$input" "$@"
    by_program
    order 'and then no more' 0 "$input" "$@"
    by_program
    by_times
    cp -p "$source" "$room/source"
    touch "$source"
    order 'a source touched' 0 "$input" "$@"
    by_program
    by_contents
    sed 's/[.]$/!/' "$room/source" >"$source"
    touch -r "$room/source" "$source"
    otherwise 'a source changed, with its size and its time' "$@"
    cp -p "$room/source" "$source"
    printf '\n' >>"$source"
    otherwise 'a source changed' "$@"
    cp "$room/source" "$source"
    order 'and changed back' 0 "$input" "$@"
    by_program
    mv "$source" "$room/away"
    otherwise 'a source taken away' "$@"
    mv "$room/away" "$source"
    order 'and put back' 0 "$input" "$@"
    by_program
}

# What is done where the program isn't that of the sources: the sources are run, or how it is built is said.
otherwise() {
    text=$1
    shift
    if [ "$else" = sources ]; then
        traced "$@"
        so "$launched: $text" true
        by_sources
    else
        order "$text" 3 "$input" "$@"
        says 'rt run'
    fi
}

conclude() {
    if [ $failed = 0 ]; then echo 'all as it should be'; else echo 'some are not as they should be'; fi
    exit $failed
}

for part in trace end look; do rm -f -- crates/sctp_${part}_main/out/sctp_${part}_main*; done
unbuilt
[ "${1:-}" = unbuilt ] && conclude
for part in trace end look; do
    of sctp-$part sctp_${part}_main
    (cd $main && rt run -- $(cat args 2>/dev/null) <stdin) >"$room/output" 2>"$room/faults"
    so "$launched: rt run proves and builds the program" [ $? = 0 ]
done
built
of sctp-trace sctp_trace_main
changed $script sources crates/sctp_trace/specs/Script.antt run
of sctp-look sctp_look_main
changed $main/stdin sources crates/sctp_look/src/ladder.rt
of sctp-end sctp_end_main
changed $main/stdin none crates/sctp_end/src/line.rt $end

conclude
