# What sctp-trace, sctp-end and sctp-look share; each sources it, with its own folder in $root.
# launches NAME CRATE ROW   which program it is; the row of crates/sctp_rows with its usage text
# answer_help WORDS..       prints the usage and exits, if they ask for help
# run_program WORDS..       runs it, as `rt run` proved and built it, if it is that of the sources as they are; else it returns
# refuse_odd WORDS..        exits if a word isn't UTF-8, since `rt try` takes no such word
# run_sources WORDS..       runs the sources by `rt try`, which proves nothing, and exits with their status
# fail TEXT STATUS          exits with this text on standard error

launches() {
    name=$1 forms_row=$3
    crate=$root/crates/$2
    program=$crate/out/$2
    noted=$program.noted
    words=$(paste -s -d ' ' -- "$crate/args" 2>/dev/null)
    prove="(cd $crate && rt run${words:+ -- $words} <stdin) proves and builds the program"
}

fail() {
    printf '%s: %s\n' "$name" "$1" >&2
    exit "$2"
}

# A remark, if standard error is a terminal.
remark() {
    if [ -t 2 ]; then
        printf '%s: %s\n' "$name" "$1" >&2
    fi
}

# All files that the sums are of: the list of crates, their files, the program and its sums, the toolchain's name.
files() {
    find "$root/crates.txt" "$root"/crates/*/src "$root"/crates/*/specs "$root"/crates/*/proofs "$crate/args" "$crate/status" \
        "$program" "$program.stamp" "${toolchain%/*/*}/WHAT" ! -type d "$@" 2>/dev/null
}

# A line for each of them: its path, its size, when its contents and when anything about it changed last.
listed() {
    files -printf '%p %i %s %T@ %C@\n'
}

# Whether the sources are those of the last proved build, by the sums of their contents that `rt run` uses: 0 yes, 9 no.
sums() {
    cd -- "$crate" && python3 -B - "$toolchain" <<'END'
import os, sys
from importlib.machinery import SourceFileLoader
from importlib.util import module_from_spec, spec_from_loader
loader = SourceFileLoader("rt", os.path.realpath(sys.argv[1]))
rt = module_from_spec(spec_from_loader("rt", loader))
loader.exec_module(rt)
crate = rt.rtlib.Crate(os.getcwd(), rt.rtlib.root_above(os.getcwd()), {})
rt.read_files(crate)
program = "out/" + crate.name
kept = rt.rtlib.text_of(program + ".stamp")
sys.exit(0 if kept == crate.stamp() + rt.rtlib.sum_of(program) else 9)
END
}

# Whether the contents are those of the build. If so, the times and sizes that the files had before are noted, but for files that
# changed within two seconds: a later change might get the same times.
is_same() {
    listed 2>/dev/null >"$noted.$$"
    (sums) >/dev/null 2>&1
    set -- $?
    if [ "$1" = 0 ] && [ -z "$(files -newerct '2 seconds ago' -print)" ]; then
        mv -f -- "$noted.$$" "$noted" 2>/dev/null
    else
        rm -f -- "$noted.$$"
    fi
    return "$1"
}

# The files are compared by their times and sizes, and their contents are read if those aren't the noted ones. If the toolchain can't
# be asked, no source may be newer than the program.
is_current() {
    [ -x "$program" ] || return 1
    if toolchain=$(command -v rt); then
        toolchain=$(readlink -f -- "$toolchain")
        [ -s "$noted" ] && listed | cmp -s -- "$noted" - && return 0
        is_same
        case $? in
            0) return 0 ;;
            9) return 1 ;;
        esac
    fi
    [ -z "$(find "$root"/crates.txt "$root"/crates/*/src "$root"/crates/*/specs "$root"/crates/*/proofs -newer "$program" 2>/dev/null)" ]
}

run_program() {
    if is_current; then
        exec "$program" "$@"
    fi
}

# What the program writes to standard error in a row of crates/sctp_rows, which the gate compares with the program: up to this status.
said_in_row() {
    sed -n "/^= $1\$/,/^status $2\$/{s/^! \{0,1\}//p;}" "$root/crates/sctp_rows/stdout" 2>/dev/null | grep ''
}

# The usage text of the program.
forms() {
    said_in_row "$forms_row" 1 | sed -n '/^usage:/,$p'
}

# A request for help is `--help` or `-h` anywhere, or `help` alone. It is answered on standard output, with status 0, whether anything is
# built or not; where the rows can't be read the program answers it, as a wrong word.
answer_help() {
    case "$#:$* " in
        1:help\ ) ;;
        *\ --help\ * | *\ -h\ * | *:--help\ * | *:-h\ *) ;;
        *) return ;;
    esac
    usage=$(forms)
    [ -n "$usage" ] || return
    printf '%s\n' "$usage" || exit 3
    exit 0
}

refuse_odd() {
    if command -v iconv >/dev/null 2>&1 && ! printf '%s\n' "$@" | iconv -f UTF-8 -t UTF-8 >/dev/null 2>&1; then
        printf "%s: a word isn't UTF-8\n" "$name" >&2
        forms >&2
        exit 1
    fi
}

# What `rt try` wrote to standard error ends with lines of its own, each kind at most once, in any order: what its two runs and its search
# for races came to, and how the program ended. `own` prints these, `program` the lines before them, which are the program's.
lines_of() {
    awk -v whose="$1" '
        { lines[NR] = $0 }
        END {
            last = NR
            while (last > 0 && match(lines[last], /^(interpreter: |checked: |races: |run=)/) && !seen[substr(lines[last], 1, RLENGTH)]++) last--
            for (at = whose == "own" ? last + 1 : 1; at <= (whose == "own" ? NR : last); at++) print lines[at]
        }
    ' "$said"
}

# Of what `rt try` wrote, the reason why the run wasn't ended.
limit() {
    lines_of own | sed -n 's/^checked: no-answer: //p'
}

# `rt try` reads no terminal, and stops at a pause in its input and at 64 MiB: it gets the whole input as a file.
run_sources() {
    command -v rt >/dev/null 2>&1 || fail "no program of these sources is built, and the toolchain (rt) is not on the PATH" 3
    remark 'the sources as they are, nothing proved (a minute)'
    folder=$(mktemp -d) || exit 3
    trap 'rm -rf -- "$folder"' EXIT
    trap 'exit 130' HUP INT TERM
    input=$folder/input said=$folder/said
    cat >"$input" || exit 3
    [ "$(wc -c <"$input")" -lt 67108864 ] || fail "sources that aren't proved read less than 67108864 bytes; $prove, which has no such limit" 3
    cd -- "$crate" || exit 3
    rt try -- "$@" <"$input" 2>"$said"
    status=$(lines_of own | sed -n 's/^run=ended status=\([0-9]*\).*/\1/p')
    if [ -n "$status" ]; then
        lines_of program >&2
        exit "$status"
    fi
    limit | grep -q '' && fail "not run to its end: $(limit). Sources that aren't proved are run within limits; $prove, which has none" 3
    cat -- "$said" >&2
    fail "the sources can't be run; $prove" 3
}
