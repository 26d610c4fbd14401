#!/usr/bin/env bash
# Names: the parts of crates.txt, the glossary, public types, words of docs/FORMAT.md. Each question is also asked of a copy with a fault.
. "$(dirname "$0")/lib.sh"

asked() { python3 "$root/tests/names.py" "$@" 2>&1; }

names_are_as_they_should_be() {
    local question said
    for question in parts words types format; do
        said=$(asked "$question")
        same "names.py $question: status" 0 $?
        same "names.py $question" '' "$said"
    done
}

# wrong QUESTION FILE SCRIPT TOLD: a copy where the sed script makes a file wrong is told by these words.
wrong() {
    cp "$root/$2" kept
    sed -i "$3" "copy/$2"
    same "$1: the copy of $2 differs" yes "$(cmp -s kept "copy/$2" || echo yes)"
    has "$1: a fault in $2" "$4" "$(asked "$1" copy)"
    cp kept "copy/$2"
}

what_is_wrong_is_told() {
    local crate
    mkdir -p copy/crates
    cp -R "$root/docs" "$root/crates.txt" copy
    for crate in "$root"/crates/*; do
        mkdir "copy/crates/${crate##*/}"
        cp -R "$crate/src" "copy/crates/${crate##*/}"
        if [ -d "$crate/specs" ]; then cp -R "$crate/specs" "copy/crates/${crate##*/}"; fi
    done
    wrong parts crates.txt 's/^jx_lex:/jx_lex: jx_report/' 'jx_lex stands on jx_report, which is no crate above it'
    wrong parts crates.txt '/^jx_shelf:/d' 'ARCHITECTURE.md has jx_shelf, which is not in crates.txt'
    wrong parts docs/ARCHITECTURE.md 's/`jx_find`, //' 'ARCHITECTURE.md has no layer of jx_find'
    wrong parts docs/ARCHITECTURE.md 's/, `jx_crew` |/, `jx_crew`, `jx_run` |/' 'ARCHITECTURE.md has jx_run twice'
    wrong parts docs/ARCHITECTURE.md '/^| texts |/{h; d}; /^| tests |/{G}' 'stands on jx_run of a higher layer'
    wrong parts crates.txt 's/^# tests$/# more/' 'crates.txt has the parts'
    wrong words docs/ARCHITECTURE.md 's/^| chunk |/| batch |/' 'the glossary has batch twice'
    wrong words docs/ARCHITECTURE.md 's/^| chunk |/| morsel |/' 'nothing else has the word morsel'
    wrong types crates/jx_edit/src/lib.rt '$a pub struct Verdict;' 'Verdict is a public type of jx_edit jx_run'
    wrong types crates/jx_serve/src/mark.rt 's/^pub struct Mark /pub struct Diagnostic /' 'Mark is shared no longer by jx_lex jx_serve'
    wrong format docs/FORMAT.md 's/^| `transitions` |/| `ways` |/' 'no definition has the word ways'
    wrong format docs/FORMAT.md 's/^- States: `Gap Str/- States: `Str Gap/' 'the states are not those of jx_lex'
}

tests names_are_as_they_should_be \
    what_is_wrong_is_told
