#!/bin/sh
# Tries the mutants of the sources that are kept beside the gate: the prover must refuse each. A mutant is a wrong body of a function, an
# entry of crates/NAME/wrong-bodies.txt: a sentence that says the mistake, then the lines of an edit (`file:`, `old:`, `new:`) as in
# crates/NAME/must-fail/*.edit, which the gate tries; a blank line between two entries. To be run by hand, before a crate's contracts change:
#   tests/wrong-bodies.sh                      all of them (hours of processor time)
#   tests/wrong-bodies.sh sctp_send ..         those of these crates
#   tests/wrong-bodies.sh sctp_send/NAME ..    this one alone (of must-fail too): NAME is its file without the ending, or its sentence with `_`
#                                              for each space
#   tests/wrong-bodies.sh --look [CRATE ..]    tries none, and says which of all edits, of must-fail too, don't fit: an edit fits if its
#                                              file is there, and each of its old texts stands in it once
#   tests/wrong-bodies.sh --compile [CRATE, CRATE/NAME ..]
#                                              proves none, and says which of all edits, of must-fail too, don't fit or don't compile (some
#                                              minutes a crate)
#   tests/wrong-bodies.sh --list [CRATE ..]    tries none, and prints all edits, of must-fail too, crate by crate: the gate's or beside it,
#                                              what is wrong, the files that it changes
# It works on a copy of what the crates stand on, with the libraries that earlier checks left in out/ (`rt all check` makes those that are
# missing or old in the checkout; here they would be made again). It ends with 0 if each was refused, or fits, or compiles.

root=$(CDPATH='' cd -- "$(dirname -- "$0")/.." && pwd -P) || exit 3
cd -- "$root" || exit 3
room=$(mktemp -d) || exit 3
trap 'rm -rf -- "$room"' EXIT
trap 'exit 130' HUP INT TERM

# Writes each entry of a crate's wrong-bodies.txt as an edit of its own, $room/beside/CRATE/NAME.edit; it says what is no entry.
unpack() {
    mkdir -p "$room/beside/$1"
    [ -e "crates/$1/wrong-bodies.txt" ] || return 0
    awk -v page="crates/$1/wrong-bodies.txt" -v into="$room/beside/$1" '
        function refuse(why) { printf "%s:%d: %s\n", page, NR, why; refused = 1 }
        /^$/ { path = ""; next }
        path == "" {
            name = $0; gsub(" ", "_", name); path = into "/" name ".edit"
            if (name !~ /^[a-z0-9_]+$/) refuse("an entry begins with its sentence, in lower case letters and digits")
            if (name in names) refuse("this sentence is an entry already")
            names[name] = 1; printf "" > path; next
        }
        /^file: / || /^old: / || /^new:/ { print > path; next }
        { refuse("this line is none of an edit") }
        END { exit refused }
    ' "crates/$1/wrong-bodies.txt"
}

# The crates that these stand on, and these.
closure() {
    awk -v wanted="$*" '
        /^[a-z]/ { name = $1; sub(":", "", name); $1 = ""; stands[name] = $0 }
        function add(name,   parts, count, at) {
            if (!(name in stands) || name in added) return
            added[name] = 1
            count = split(stands[name], parts, " ")
            for (at = 1; at <= count; at++) add(parts[at])
            print name
        }
        END { count = split(wanted, names, " "); for (at = 1; at <= count; at++) add(names[at]) }
    ' crates.txt
}

# Whether the edit of this file fits the crate in this folder; else it says why not. Where a third folder is given, the edited texts go there.
fits() {
    awk -v folder="$1" -v edit="$2" -v into="${3:-}" '
        function refuse(why) { printf "%s: %s\n", edit, why; refused = 1; exit 1 }
        function text_of(path,   line, text, got) {
            while ((got = (getline line < path)) > 0) text = text line "\n"
            if (got < 0) refuse("there is no file " path)
            close(path)
            return text
        }
        function count_of(text, part,   at, found) {
            while ((at = index(text, part)) > 0) { found++; text = substr(text, at + length(part)) }
            return found + 0
        }
        /^file: / { path = folder "/" substr($0, 7) }
        /^old: / { old = substr($0, 6) }
        /^new:/ {
            new = substr($0, 5); sub(/^ /, "", new)
            if (path == "" || old == "") refuse("a new text stands before a file or an old text")
            if (!(path in texts)) texts[path] = text_of(path)
            found = count_of(texts[path], old)
            if (found != 1) refuse("an old text stands in " path " " found " times: " old)
            at = index(texts[path], old)
            texts[path] = substr(texts[path], 1, at - 1) new substr(texts[path], at + length(old))
            pairs++; old = ""
        }
        END {
            if (!refused && !pairs) refuse("it has no old and new text")
            if (!refused && into != "") for (path in texts) printf "%s", texts[path] > (into substr(path, length(folder) + 1))
        }
    ' "$2"
}

# Each edit of each crate: whether it fits, and stands in one folder alone.
look() {
    count=0 failed=0
    for crate in $*; do
        for edit in crates/"$crate"/must-fail/*.edit "$room/beside/$crate"/*.edit; do
            [ -e "$edit" ] || continue
            count=$((count + 1))
            fits "crates/$crate" "$edit" || failed=$((failed + 1))
            other=$room/beside/$crate/${edit##*/}
            if [ "$edit" != "$other" ] && [ -e "$other" ]; then
                echo "$edit: crates/$crate/wrong-bodies.txt has another of this name"
                failed=$((failed + 1))
            fi
        done
    done
    echo "$((count - failed)) of $count edits fit"
    [ $failed = 0 ]
}

# Each edit of each crate, a line for each.
list() {
    for crate in $*; do
        set -- "gate crates/$crate/must-fail" "beside $room/beside/$crate"
        ls "${1#* }" "${2#* }" 2>/dev/null | grep -q '[.]edit$' || continue
        printf '%s\n' "$crate"
        for place in "$@"; do
            for edit in "${place#* }"/*.edit; do
                [ -e "$edit" ] || continue
                sentence=$(basename "$edit" .edit | tr '_' ' ')
                files=$(sed -n 's/^file: //p' "$edit" | sort -u | paste -s -d ' ')
                printf '  %-6s  %s: %s\n' "${place%% *}" "$sentence" "$files"
            done
        done
    done
}

# Lays what crates stand on into the copy.
lay() {
    mkdir -p "$room/crates" || exit 3
    closure "$@" >"$room/names"
    grep -E "^($(paste -s -d '|' "$room/names"))( [a-z]+)?:" crates.txt >"$room/crates.txt"
    cp -- HANDLES "$room/" || exit 3
    while read -r crate; do
        mkdir -p "$room/crates/$crate/out" || exit 3
        for part in src specs proofs out/rlib; do
            if [ -e "crates/$crate/$part" ]; then
                cp -a -- "crates/$crate/$part" "$room/crates/$crate/$part" || exit 3
            fi
        done
    done <"$room/names"
}

# Lays the crate's sources into the copy as they are.
fresh() {
    for part in src specs proofs; do
        rm -rf -- "$room/crates/$1/$part"
        if [ -e "crates/$1/$part" ]; then cp -a -- "crates/$1/$part" "$room/crates/$1/$part" || exit 3; fi
    done
}

# Whether the crate compiles as it lies in the copy.
reads() {
    (cd -- "$room/crates/$1" && rt check --only '') >"$room/said" 2>&1
    grep -q '^only=' "$room/said" && ! grep -qE ': error(:|\[)' "$room/said"
}

# Whether the crate compiles with this edit; else it says why not.
compiles() {
    fresh "$1"
    fits "crates/$1" "$2" "$room/crates/$1" || return 1
    reads "$1" && return 0
    echo "$2: it doesn't compile: $(grep -m 1 -E ': error(:|\[)' "$room/said" || tail -n 1 "$room/said")"
    return 1
}

# Whether each of these edits of a crate compiles. Many are laid on it at once, no two on one file; where they don't compile so, one by one.
compile() {
    crate=$1
    shift
    left=$* count=$# failed=0
    while [ -n "$left" ]; do
        batch='' later=''
        fresh "$crate"
        : >"$room/changed"
        for edit in $left; do
            sed -n 's/^file: //p' "$edit" | sort -u >"$room/files"
            if grep -qxFf "$room/changed" "$room/files"; then
                later="$later $edit"
            elif fits "crates/$crate" "$edit" "$room/crates/$crate"; then
                cat "$room/files" >>"$room/changed"
                batch="$batch $edit"
            else
                failed=$((failed + 1))
            fi
        done
        if [ -n "$batch" ] && ! reads "$crate"; then
            for edit in $batch; do compiles "$crate" "$edit" || failed=$((failed + 1)); done
        fi
        left=$later
    done
    fresh "$crate"
    echo "$crate: $((count - failed)) of $count edits compile"
    [ $failed = 0 ]
}

# Tries these edits of a crate.
try() {
    crate=$1
    shift
    mkdir -p "$room/crates/$crate/must-fail" && cp -- "$@" "$room/crates/$crate/must-fail/" || exit 3
    (cd -- "$room" && rt must-fail "$crate")
    ended=$?
    rm -r -- "$room/crates/$crate/must-fail"
    if [ $ended = 0 ]; then echo "$crate: $# refused"; else echo "$crate: not each of $# refused"; fi
    return $ended
}

# The edits of a crate that are meant by these words, each a crate (its edits in the folders of the task) or one of its edits.
edits_of() {
    crate=$1
    shift
    for word in "$@"; do
        case $word in
            "$crate")
                set -- "$room/beside/$crate"/*.edit
                if [ "$task" = compile ]; then set -- crates/"$crate"/must-fail/*.edit "$@"; fi
                ;;
            "$crate"/*) set -- crates/"$crate"/must-fail/"${word#*/}".edit "$room/beside/$crate/${word#*/}".edit ;;
            *) continue ;;
        esac
        ls -- "$@" 2>/dev/null | grep '' || { echo "$word: there is no such edit" >&2; return 1; }
    done
}

task=try
case "${1:-}" in
    --look | --list | --compile)
        task=${1#--}
        shift
        ;;
esac
status=0
crates=$(printf '%s\n' "$@" | sed 's,/.*,,' | sort -u)
for crate in ${crates:-$(ls crates)}; do unpack "$crate" || status=1; done
[ $status = 0 ] || exit 1
case $task in
    look | list)
        # shellcheck disable=SC2046
        [ $# -gt 0 ] || set -- $(ls crates)
        $task "$@"
        exit
        ;;
    compile) with='crates/*/must-fail' ;;
    *) with='' ;;
esac
# shellcheck disable=SC2046,SC2086
[ $# -gt 0 ] || set -- $(for folder in crates/*/wrong-bodies.txt $with; do [ -e "$folder" ] && basename "$(dirname "$folder")"; done | sort -u)
# shellcheck disable=SC2046
lay $(printf '%s\n' "$@" | sed 's,/.*,,')
for crate in $(printf '%s\n' "$@" | sed 's,/.*,,' | sort -u); do
    edits=$(edits_of "$crate" "$@") || exit 2
    # shellcheck disable=SC2086
    $task "$crate" $edits || status=1
done
exit $status
