#!/usr/bin/env bash
# Text sequences whose elements are told as they end: what is told is what `seq` tells, and when.
. "$(dirname "$0")/lib.sh"

# all TEXT..: each on a line of its own.
all() { printf '%s\n' "$@"; }

each_element_is_told_as_by_seq() {
    same 'elements' "$(all 'status 1' 'out: 1..6 accepted' 'out: 7..11 may be cut' 'out: 13..16 truncated')" "$(said '\036true\n\036true\036\036[1\n' seq --live)"
    same 'no element' 'status 0' "$(said '' seq --live)"
    same 'separators alone' 'status 0' "$(said '\036\036' seq --live)"
    same 'before the first separator' "$(all 'status 1' 'out: 0..2 unmarked' 'out: 3..5 accepted')" "$(said '1\n\x1e2\n' seq --live)"
    same 'an element that is too deep' "$(all 'status 1' 'out: 1..5 too deep at 2' 'out: 6..8 accepted')" "$(said '\036[[]]\036[]' seq --live --depth 1)"
    same 'quiet' 'status 1' "$(said '\036[]\n\x1e1' seq --live -q)"
    same 'a mark before a sequence' "$(all 'status 0' 'out: 4..6 accepted')" "$(said '\357\273\277\x1e1\n' seq --live --ignore-bom)"
    same 'where it is not ignored' "$(all 'status 1' 'out: 0..3 unmarked' 'out: 4..6 accepted')" "$(said '\357\273\277\x1e1\n' seq --live)"
    same 'a mark alone' 'status 0' "$(said '\357\273\277' seq --live --ignore-bom)"
    same 'a mark with more before the first separator' "$(all 'status 1' 'out: 0..4 unmarked' 'out: 5..7 accepted')" "$(said '\357\273\2771\x1e2\n' seq --live --ignore-bom)"
    same 'a mark in an element' "$(all 'status 1' 'out: 1..6 stopped at 1')" "$(said '\036\357\273\2771\n' seq --live --ignore-bom)"
    same 'workers and pieces change nothing' "$(all 'status 1' 'out: 1..3 accepted' 'out: 4..5 may be cut')" "$(said '\x1e1\n\x1e2' seq --live --workers 3 --piece 1)"
}

# Each file of data of the tests, as it is and with its line feeds as record separators.
the_data_of_the_tests_is_told_alike() {
    local file words
    for file in $(find "$root/tests" "$root/crates" -path '*/out/*' -prune -o \( -name '*.json' -o -name 'stdin' -o -name 'stdout' -o -path '*/verdicts/*' \) -type f -size -2000k -print); do
        tr '\n' '\036' <"$file" >separated
        for words in '' '--ignore-bom' '--depth 3'; do
            same "$file by seq $words" "$("$program" seq $words "$file" | cksum; echo "${PIPESTATUS[0]}")" "$("$program" seq --live $words "$file" | cksum; echo "${PIPESTATUS[0]}")"
            same "$file in elements by seq $words" "$("$program" seq $words separated | cksum; echo "${PIPESTATUS[0]}")" "$("$program" seq --live $words separated | cksum; echo "${PIPESTATUS[0]}")"
        done
    done
}

several_files_have_each_line_behind_their_name() {
    printf '\036true\n\x1e1' >a
    printf '\036[]\n' >'b: c'
    : >empty
    same 'three files' "$("$program" seq a empty 'b: c' 2>&1; echo "status $?")" "$("$program" seq --live a empty 'b: c' 2>&1; echo "status $?")"
    same 'a file that is missing' "$(all 'status 2' 'out: a: 1..6 accepted' 'out: a: 7..8 may be cut' 'out: b:\x20c: 1..4 accepted' \
        'err: jx: missing: cannot open: No such file or directory')" "$(said '' seq --live a missing 'b: c')"
    same '--file' "$(all 'status 0' 'out: 1..4 accepted')" "$(said '' seq --live --file 'b: c')"
}

# An element is told before the input ends, and not before its end is known.
elements_are_told_while_the_input_is_read() {
    local first
    first=$( (printf '\x1e1\n\x1e2\n'; sleep 2; printf '\0363\n') | "$program" seq --live | (IFS= read -r -t 1.5 line && echo "$line"; IFS= read -r -t 0.1 line && echo "$line"; cat >/dev/null))
    same 'an element before the input ends, and no more' '1..3 accepted' "$first"
    printf '\x1e1\n' >log
    (timeout 3 tail -c +1 -f log 2>/dev/null | "$program" seq --live >told) &
    sleep 0.5
    printf '\036[1,\n\036' >>log
    sleep 1.5
    same 'elements of a log that grows' "$(all '1..3 accepted' '4..8 truncated')" "$(cat told)"
    printf '[]' >>log
    wait
    same 'and the last one where it ends' "$(all '1..3 accepted' '4..8 truncated' '9..11 accepted')" "$(cat told)"
}

what_cannot_be_asked_read_or_written() {
    has 'names that have to be unique' "error: the argument '--live' cannot be used with '--unique-names'" "$(said '' seq --live --unique-names)"
    has 'live is for seq alone' "error: unexpected argument '--live' found" "$(said '' check --live)"
    same 'no file' "$(all 'status 2' 'err: jx: missing: cannot open: No such file or directory')" "$(said '' seq --live missing)"
    same 'a folder as standard input' "$(all 'jx: -: read failed: Is a directory' 'status 2')" "$("$program" seq --live <. 2>&1; echo "status $?")"
    if [ -w /dev/full ]; then
        same 'nowhere to write to' "$(all 'jx: write failed: No space left on device' 'status 2')" "$(printf '\036x\n' | "$program" seq --live 2>&1 >/dev/full; echo "status $?")"
        same 'quiet, and nowhere to write to' 'status 1' "$(printf '\036x\n' | "$program" seq --live -q 2>&1 >/dev/full; echo "status $?")"
    fi
}

# The program gets no signal, as where what calls it ignores it.
a_closed_pipe_ends_it_without_a_word() {
    local status
    yes $'\036x' | head -n 200000 >bad
    status=$( (trap '' PIPE; "$program" seq --live bad 2>err; echo $? >status) | head -c 1 >/dev/null; cat status)
    same 'a reader that goes away' 'status 2, told: ' "status $status, told: $(cat err)"
}

tests each_element_is_told_as_by_seq \
    the_data_of_the_tests_is_told_alike \
    several_files_have_each_line_behind_their_name \
    elements_are_told_while_the_input_is_read \
    what_cannot_be_asked_read_or_written \
    a_closed_pipe_ends_it_without_a_word
