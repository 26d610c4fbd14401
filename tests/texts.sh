#!/usr/bin/env bash
# JSON texts one behind another: what is told of each and when, and what happens where nothing can be read.
. "$(dirname "$0")/lib.sh"

# all TEXT..: each on a line of its own.
all() { printf '%s\n' "$@"; }

# What is told of an input: WHAT | INPUT | ITS LINES, with a slash between two. The status is 1 where a line is not accepted.
TEXTS='
nothing | |
white space alone | \x20\t\r\n |
a text | {"a":1} | 0..7 accepted
two objects | {"a":1}{"a":2} | 0..7 accepted / 7..14 accepted
line feeds between | [1]\n[2]\n | 0..3 accepted / 4..7 accepted
white space around | \r\n\t1\x20\n | 3..4 accepted
texts on several lines | {\n"a":\n[]}\n{\n} | 0..10 accepted / 11..14 accepted
numbers and a string | 1 2 "x" | 0..1 accepted / 2..3 accepted / 4..7 accepted
a number before an array | 1[2]3{"a":4}5"6" | 0..1 accepted / 1..4 accepted / 4..5 accepted / 5..12 accepted / 12..13 accepted / 13..16 accepted
literals before a string | true"a"null[]false{} | 0..4 accepted / 4..7 accepted / 7..11 accepted / 11..13 accepted / 13..18 accepted / 18..20 accepted
a number behind an array | [1]2 | 0..3 accepted / 3..4 accepted
strings without white space | "a""b"true | 0..3 accepted / 3..6 accepted / 6..10 accepted
two digits are one number | 01 | 0..1 stopped at 1
two literals | truefalse | 0..4 stopped at 4
a literal behind a number | 12true | 0..2 stopped at 2
a sign behind a number | 1-2 | 0..1 stopped at 1
a comma behind a number | 1,2 | 0..1 stopped at 1
a comma behind an array | [1],[2] | 0..3 accepted / 3..3 stopped at 3
a bracket too many | [1]]2 | 0..3 accepted / 3..3 stopped at 3
a bracket behind a number | 12] | 0..2 stopped at 2
an incomplete number before white space | 1. 2 | 0..2 stopped at 2
an incomplete number before an array | 1e[2] | 0..2 stopped at 2
an incomplete literal | tru 1 | 0..3 stopped at 3
nothing is told behind a fault | 1 [2,} 3 | 0..1 accepted / 2..5 stopped at 5
an array that ends early | [1] [2 | 0..3 accepted / 4..6 truncated
a string that ends early | "a" "b\n | 0..3 accepted / 4..6 stopped at 6
a string without an end | 1 "b | 0..1 accepted / 2..4 truncated
a literal that ends early | 1 nul | 0..1 accepted / 2..5 truncated
white space belongs to what ends early | [1,\x20\n | 0..5 truncated
a quotation mark in a string | "\\"" "\\\\"1 | 0..4 accepted / 5..9 accepted / 9..10 accepted
brackets in a string | {"}":"]"}[{"]":"["}] | 0..9 accepted / 9..20 accepted
a record separator | \x1e1 | 0..0 stopped at 0
a byte order mark | \357\273\2771 | 0..0 stopped at 0
'

each_text_is_told() {
    local what input lines wanted line status
    while IFS='|' read -r what input lines; do
        if [ -z "$what" ]; then continue; fi
        what=${what% }
        input=${input# }
        input=${input% }
        lines=${lines# }
        status=0
        if [[ $lines =~ (stopped|truncated) ]]; then status=1; fi
        wanted="status $status"
        while [ -n "$lines" ]; do
            line=${lines%% / *}
            wanted+=$'\n'"out: $line"
            if [ "$line" = "$lines" ]; then break; fi
            lines=${lines#* / }
        done
        same "$what" "$wanted" "$(said "$input" texts)"
    done <<<"$TEXTS"
}

options_are_heeded() {
    same 'depth' "$(all 'status 1' 'out: 0..2 accepted' 'out: 2..3 too deep at 3')" "$(said '[][[]]' texts --depth 1)"
    same 'no depth at all' "$(all 'status 1' 'out: 0..1 accepted' 'out: 1..1 too deep at 1')" "$(said '1[]' texts --depth 0)"
    same 'quiet and accepted' 'status 0' "$(said '1 2' texts -q)"
    same 'quiet and refused' 'status 1' "$(said '1 2x' texts --quiet)"
    printf '1 2' >one
    printf '[' >two
    same 'a file' "$(all 'status 0' 'out: 0..1 accepted' 'out: 2..3 accepted')" "$(said '' texts one)"
    same 'the option for a file' "$(all 'status 1' 'out: 0..1 truncated')" "$(said '' texts -f two)"
    same 'its name' "$(all 'status 0' 'out: one: 0..1 accepted' 'out: one: 2..3 accepted')" "$(said '' texts -H one)"
    same 'several files' "$(all 'status 1' 'out: one: 0..1 accepted' 'out: one: 2..3 accepted' 'out: two: 0..1 truncated')" "$(said '' texts one two)"
    same 'a file that is not there' "$(all 'status 2' 'out: one: 0..1 accepted' 'out: one: 2..3 accepted' 'err: jx: none: cannot open: No such file or directory')" "$(said '' texts none one)"
}

# Each text is told before the next bytes come.
texts_are_told_as_they_end() {
    local got
    mkfifo bytes
    "$program" texts <bytes >told &
    exec 7>bytes
    printf '{"a":1' >&7
    sleep 0.3
    same 'nothing of a text that goes on' '' "$(cat told)"
    printf '}' >&7
    sleep 0.3
    same 'an object by its last byte' '0..7 accepted' "$(cat told)"
    printf '\n12' >&7
    sleep 0.3
    same 'a number may go on' '0..7 accepted' "$(cat told)"
    printf '3 ' >&7
    sleep 0.3
    got=$(all '0..7 accepted' '8..11 accepted')
    same 'a number by white space behind it' "$got" "$(cat told)"
    printf 'x' >&7
    sleep 0.3
    same 'a fault at once' "$(all "$got" '12..12 stopped at 12')" "$(cat told)"
    printf ' 1' >&7
    exec 7>&-
    wait
    same 'and no more' "$(all "$got" '12..12 stopped at 12')" "$(cat told)"
}

tests each_text_is_told \
    options_are_heeded \
    texts_are_told_as_they_end
