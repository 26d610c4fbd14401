#!/usr/bin/env bash
# Lists of pointers of several lengths, long pointers, and a list of a million.
. "$(dirname "$0")/lib.sh"

pointers_have_the_same_answers_in_lists_of_any_length() {
    local said last
    said=$(JX_PROGRAM=$program python3 "$root/tests/pointers.py" 2>&1)
    same 'pointers.py ends well' 0 $?
    last=${said##*$'\n'}
    if [[ $last =~ ([0-9]+)\ passed,\ ([0-9]+)\ failed ]]; then
        passed=$((passed + BASH_REMATCH[1]))
        failed=$((failed + BASH_REMATCH[2]))
    fi
    if [[ ! $last =~ \ 0\ failed$ ]]; then echo "${said: -3000}"; fi
}

tests pointers_have_the_same_answers_in_lists_of_any_length
