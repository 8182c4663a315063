#!/bin/sh
# Prints what carries the proofs of a crate: each file of lemmas with its first sentence, which says what the file proves. It takes seconds.
#   tests/lemmas.sh                 all crates, in the order of crates.txt
#   tests/lemmas.sh sctp_send ..    these alone
# Left out are the answers to a function's goals (Answers.antt, Invariants.antt, Proof.antt) and files that only list others. It ends with 1
# if a file begins with no such sentence, or there is no such crate, else with 0.

root=$(CDPATH='' cd -- "$(dirname -- "$0")/.." && pwd -P) || exit 3
cd -- "$root" || exit 3
[ $# -gt 0 ] || set -- $(sed -n 's/^\([a-z][a-z0-9_]*\).*/\1/p' crates.txt)

# The comment at the head of a file, to the end of its first sentence.
head_of() {
    awk '!/^--/ { exit } { sub(/^-- */, ""); printf "%s%s", sep, $0; sep = " " } /[.:]$/ { exit }' "$1"
}

# The files of lemmas of the crate in this folder.
lemma_files() {
    find "$1/proofs" -name '*.antt' ! -name Lib.antt ! -name Answers.antt ! -name Invariants.antt ! -name Proof.antt 2>/dev/null | sort |
        while read -r file; do
            ! grep -qvE '^((pub )?mod .*)?$' "$file" || echo "$file"
        done
}

status=0
for crate; do
    if [ ! -d "crates/$crate" ]; then
        echo "crates/$crate: no such crate" >&2
        status=1
        continue
    fi
    files=$(lemma_files "crates/$crate")
    [ -n "$files" ] || continue
    echo "$crate"
    for file in $files; do
        line=$(head_of "$file")
        [ -n "$line" ] || { line='IT DOESN'"'"'T SAY'; status=1; }
        name=${file#crates/*/proofs/}
        printf '  %-36s %s\n' "${name%.antt}" "$line"
    done
done
exit $status
