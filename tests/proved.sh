#!/usr/bin/env bash
# docs/PROVED.md and the README of each crate: each call, clause and file that they name is there, each name that a crate hands out is named,
# and each crate has its page. Each question is also asked of a copy with a fault.
. "$(dirname "$0")/lib.sh"

asked() { python3 "$root/tests/proved.py" "$@" 2>&1; }

pages_are_as_they_should_be() {
    local question said
    for question in headings names promises paths; do
        said=$(asked "$question")
        same "proved.py $question: status" 0 $?
        same "proved.py $question" '' "$said"
    done
}

# wrong QUESTION FILE SCRIPT TOLD: a copy where the sed script makes a file wrong is told by these words.
wrong() {
    cp "copy/$2" kept
    sed -i "$3" "copy/$2"
    same "$1: the copy of $2 differs" yes "$(cmp -s kept "copy/$2" || echo yes)"
    has "$1: a fault in $2" "$4" "$(asked "$1" copy)"
    cp kept "copy/$2"
}

make_copy() {
    local folder crate
    mkdir -p copy/crates
    cp -R "$root/docs" "$root/crates.txt" copy
    for folder in tests fuzz bindings include; do ln -s "$root/$folder" "copy/$folder"; done
    for crate in "$root"/crates/*; do
        mkdir "copy/crates/${crate##*/}"
        cp -R "$crate/src" "copy/crates/${crate##*/}"
        if [ -d "$crate/specs" ]; then cp -R "$crate/specs" "copy/crates/${crate##*/}"; fi
        if [ -e "$crate/README.md" ]; then cp "$crate/README.md" "copy/crates/${crate##*/}"; fi
    done
}

what_is_wrong_is_told() {
    make_copy
    wrong headings docs/PROVED.md 's/^## Trusted$/## Not promised/' 'PROVED.md has the heading Not promised twice'
    wrong headings docs/PROVED.md '/^| \[`jx_edit`\]/d' 'PROVED.md links jx_summary'
    wrong headings docs/PROVED.md 's|(\.\./crates/jx_edit/|(../crates/jx_find/|' 'PROVED.md links jx_find for jx_edit'
    wrong headings crates/jx_edit/README.md 's/^## What no clause says$/## What is proved/' 'jx_edit/README.md has the headings'
    wrong headings crates/jx_edit/README.md 's/^Documents: texts/Pages: texts/' 'PROVED.md has no row | [`jx_edit`]'
    wrong headings docs/PROVED.md 's/^| \[`jx_edit`\]\(.*\) | Doc.* |$/| [`jx_edit`]\1 | Pages. |/' 'PROVED.md has no row | [`jx_edit`]'
    wrong headings crates/jx_edit/README.md 's/^- .*/&\n\n\n/' ' lines'
    wrong names crates/jx_edit/src/lib.rt '$a pub use document_fault::Another;' 'jx_edit/README.md does not name Another'
    wrong names crates/jx_edit/README.md 's/`Document::copy`, `Document::chunks`/`Document::copy`, `Document::pieces`/' \
        'jx_edit/README.md names Document::pieces, which is not there'
    wrong names crates/jx_edit/README.md 's/`Stand`: where/`Stance`: where/' 'jx_edit/README.md names Stance, which is not there'
    wrong names crates/jx_c/README.md 's/`jx_rows`, //' 'jx_c/README.md does not name jx_rows'
    wrong names docs/PROVED.md 's/`Document::verdict` of/`Document::change` of/' 'PROVED.md names Document::change, which is not there'
    wrong names docs/PROVED.md 's/`grammar_of_tokens`, and `scan` gives/`tokens_are_told`, and `scan` gives/' \
        'PROVED.md names tokens_are_told, which is not there'
    wrong promises crates/jx_edit/src/document.rt 's/^        ensures err { OnErr/        ensures unchanged { OnErr/' \
        'err is no clause of `Document::edit`'
    wrong promises crates/jx_edit/src/document.rt 's/pub fn stand(/fn stand_before(/' 'no call has the name Document::stand'
    wrong promises crates/jx_edit/src/document.rt '/pub fn stand(/,/{$/{/ensures/d}' 'Document::stand has no clause'
    wrong promises crates/jx_edit/README.md 's/^- `Document::len`, /- `Document::offset_of`, /' \
        'which clause of Document::offset_of carries it is not said'
    wrong paths crates/jx_edit/README.md 's|`specs/Standing`|`specs/Places`|' 'jx_edit/README.md names specs/Places, which is not there'
    wrong paths crates/jx_edit/README.md 's|`tests/documents.sh`|`tests/edits.sh`|' \
        'jx_edit/README.md names tests/edits.sh, which is not there'
}

tests pages_are_as_they_should_be \
    what_is_wrong_is_told
