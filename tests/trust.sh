#!/usr/bin/env bash
# docs/TRUST.md lists what has to be read to believe an answer. It is compared with what the sources reach, and pages that are wrong are told.
. "$(dirname "$0")/lib.sh"

page=$root/docs/TRUST.md

compared() { python3 "$root/tests/trust.py" compare "$@" 2>&1; }

the_page_has_what_the_contracts_reach() {
    local said
    said=$(compared)
    same 'TRUST.md is compared: status' 0 $?
    same 'TRUST.md and the sources' '' "$said"
}

# wrong NAME SCRIPT TOLD: a page that the sed script makes wrong is told by these words, once all such pages were compared.
pages=0
wrong() {
    pages=$((pages + 1))
    sed "$2" "$page" >"wrong.$pages"
    same "$1: the page differs" yes "$(cmp -s "$page" "wrong.$pages" || echo yes)"
    printf '%s\n' "$1" >"name.$pages"
    printf '%s\n' "$3" >"told.$pages"
}

a_page_that_is_wrong_is_told() {
    local each
    wrong 'a file that is left out' '/^| `jx_run\/specs\/Grammar.antt`/d' \
        '`jx check`: is left out: | `jx_run/specs/Grammar.antt` |'
    wrong 'a declaration that is left out' '/^| `Exit` of /d' '`jx check`: is left out: | `Exit` of `jx_ends/src/exit.rt` |'
    wrong 'a wrong count' 's/^\(| `jx_run\/specs\/Text.antt` | \)/\11/' '`jx check`: is not so: | `jx_run/specs/Text.antt` | 1'
    wrong 'a file that is not reached' '/^| `jx_ends\/specs\/Ends.antt`/i | `jx_report/specs/RowWords.antt` | 32 | lines |' \
        '`jx check`: is not so: | `jx_report/specs/RowWords.antt` | 32 |'
    wrong 'a file that stands twice' '/^| `jx_run\/specs\/Tree.antt`/p' '`jx check`: stands twice: | `jx_run/specs/Tree.antt` |'
    wrong 'a file in front of what cites it' '/^| `report` of /{h; d}; /^| `jx_run\/specs\/Tree.antt`/{G}' \
        'nothing above cites it: '
    wrong 'a wrong sum' 's/^    [0-9]* lines of definitions in 13 files/    1 lines of definitions in 13 files/' '`jx check`: is not said: '
    wrong 'a file that a further command needs' 's/`specs\/Repeats` [0-9]*, //' '`--unique-names`: is left out: | `jx_index` |'
    wrong 'a ported crate that is left out' 's/ `simdutf8`,//' 'the ported crate simdutf8 is named in one of TRUST.md and crates.txt'
    wrong 'a part that is left out' '/^### `lines`/d' '`lines`: is left out: '
    compared wrong.* | awk '/^== / { page = $2; next } { print >("said." substr(page, 7)) }'
    for each in name.*; do
        has "$(cat "$each")" "$(cat "told.${each#name.}")" "$(cat "said.${each#name.}")"
    done
}

each_file_of_definitions_says_what_it_defines() {
    same 'files of definitions without a head comment' '' "$(python3 "$root/tests/trust.py" definitions | grep ': *$')"
    has 'the head comment of a file' 'jx_run/specs/Text.antt: JSON texts (RFC 8259, section 2)' "$(python3 "$root/tests/trust.py" definitions jx_run)"
}

tests the_page_has_what_the_contracts_reach \
    a_page_that_is_wrong_is_told \
    each_file_of_definitions_says_what_it_defines
