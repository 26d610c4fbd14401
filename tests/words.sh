#!/usr/bin/env bash
# Documents: their words, the length of sentences, their sizes and links; and how comments begin. Each question is also asked of a copy
# with a fault.
. "$(dirname "$0")/lib.sh"

asked() { python3 "$root/tests/words.py" "$@" 2>&1; }

documents_are_as_they_should_be() {
    local question said
    for question in words sentences size links comments; do
        said=$(asked "$question")
        same "words.py $question: status" 0 $?
        same "words.py $question" '' "$said"
    done
}

# wrong QUESTION FILE SCRIPT TOLD: a copy where the sed script makes a file wrong is reported by these words.
wrong() {
    cp "copy/$2" kept
    sed -i "$3" "copy/$2"
    same "$1: the copy of $2 differs" yes "$(cmp -s kept "copy/$2" || echo yes)"
    has "$1: a fault in $2" "$4" "$(asked "$1" copy)"
    cp kept "copy/$2"
}

what_is_wrong_is_reported() {
    local path crate
    mkdir -p copy/tests copy/tools copy/include copy/fuzz copy/crates/jx_fork/src copy/crates/jx_edit/specs copy/bindings/python/jx
    cp -R "$root/docs" "$root/README.md" "$root/CHANGELOG.md" "$root/jx.1" "$root/jx-lsp.1" copy
    cp "$root/tools/words_to_avoid.txt" copy/tools && cp "$root/tests/words.txt" copy/tests
    cp "$root/include/jx.h" copy/include && cp "$root/fuzz/README.md" copy/fuzz && cp "$root"/crates/jx_fork/src/*.rt copy/crates/jx_fork/src
    cp "$root/crates/jx_edit/specs/Document.antt" copy/crates/jx_edit/specs && cp "$root/bindings/python/jx/_runs.py" copy/bindings/python/jx
    for crate in "$root"/crates/*/README.md; do
        path=copy/crates/$(basename "$(dirname "$crate")")
        mkdir -p "$path" && cp "$crate" "$path"
    done
    wrong words docs/TRUST.md '1a It is told that there was want of memory.' 'docs/TRUST.md has '
    wrong words README.md '1a A text that is spelt so.' 'spelt (written, encoded; encoding)'
    wrong words crates/jx_fork/src/lib.rt '1i // What stands behind it, and want of memory.' 'crates/jx_fork/src has '
    wrong sentences docs/RECIPES.md '1a a b c d e f g h i j k l m n o p q r s t u v w x y z a b c d e.' 'docs/RECIPES.md: 31 words'
    wrong sentences include/jx.h '2a\ * a b c d e f g h i j k l m n o p q r s t u v w x y z a b c d e.' 'include/jx.h: 31 words'
    wrong size docs/LIMITS.md "1a $(printf '%025000d' 0)" 'docs/LIMITS.md has '
    wrong size CHANGELOG.md '0,/^- /{s/^- .*/&\n  more\n  and more/}' 'CHANGELOG.md: an entry of more than two lines'
    wrong size docs/ARCHITECTURE.md 's/^| verdict | .*/&\n| verdict, too | what it is | |/' 'has a glossary of 31 terms, more than 30'
    wrong links docs/PROVED.md 's/(TRUST.md)/(TRUTH.md)/' 'docs/PROVED.md: the link to TRUTH.md leads nowhere'
    wrong links README.md 's/(docs\/LIMITS.md)/(docs\/LIMITS.md#luck)/' 'README.md: docs/LIMITS.md#luck has no such heading'
    wrong comments crates/jx_fork/src/lib.rt '2i //\n/// What a call gives.' 'crates/jx_fork/src/lib.rt:3: a comment begins with `What`: /// What a call gives.'
    wrong comments crates/jx_edit/specs/Document.antt '1i -- what a call gives' 'crates/jx_edit/specs/Document.antt:1: a comment begins with `What`: -- what'
    wrong comments bindings/python/jx/_runs.py '1i """What a call gives."""' 'bindings/python/jx/_runs.py:1: a comment begins with `What`: """What'
}

# What is made of the help texts is as new as these, and no line of the help is cut by a terminal. So neither needs a built program.
the_help_of_the_sources_is_in_the_pages() {
    local said
    mkdir -p made/crates/jx_command
    cp -R "$root/tools" "$root/jx.1" "$root/completions" "$root/README.md" made
    cp -R "$root/crates/jx_command/src" made/crates/jx_command
    same 'tools/words.py --sources has nothing to write' '' "$(made/tools/words.py --check --sources 2>&1)"
    sed -i 's/^pub const DEPTH: &str = "/&As deep as texts may be: let open at most as they are /' made/crates/jx_command/src/help.rt
    said=$(made/tools/words.py --check --sources)
    has 'a line that is too long' 'jx check: a line of the help has 1' "$said"
    has 'a page that is old' 'completions/_jx is old: run tools/words.py --sources' "$said"
    sed -i 's/^pub const LONG_FILE: &str = "/&Of all files, /' made/crates/jx_command/src/help.rt
    has 'another page that is old' 'jx.1 is old: run tools/words.py --sources' "$(made/tools/words.py --check --sources)"
}

the_sentences_that_are_held_are_in_the_pages() {
    has 'tests/claims.sh sentences' ' passed, 0 failed' "$(bash "$root/tests/claims.sh" sentences)"
}

tests documents_are_as_they_should_be \
    what_is_wrong_is_reported \
    the_help_of_the_sources_is_in_the_pages \
    the_sentences_that_are_held_are_in_the_pages
