#!/usr/bin/env bash
# The weight of the gate: wrong bodies are not lost, in the gate or beside it; how many proved tests there may be, and where they may
# stand; no function of a test is left out.
. "$(dirname "$0")/lib.sh"

# What the gate tries costs its time: a crate with wrong bodies is proved once more. So a few cheap crates have some there.
wrong_bodies_are_not_lost() {
    local inside beside
    inside=$(find "$root"/crates/*/must-fail -name '*.edit' | wc -l)
    beside=$(sed 's/.* beside the gate: \([0-9]*\) in .*/\1/; q' <<<"$("$root/tools/wrong_bodies" --passed)")
    same 'there are 200 wrong bodies or more' yes "$([ $((inside + beside)) -ge 200 ] && echo yes || echo "$inside and $beside")"
    same 'the gate tries 5 or more' yes "$([ "$inside" -ge 5 ] && echo yes || echo "$inside")"
    same 'a crate has its wrong bodies in one place' '' \
        "$(for folder in "$root"/tests/wrong_bodies/*/; do ls "$root/crates/$(basename "$folder")/must-fail" 2>/dev/null; done)"
}

wrong_bodies_can_be_put_in_their_places() {
    same 'each text stands once in its file' ' 0 failed' "$("$root/tools/wrong_bodies" --read | sed 's/.* passed,//')"
    same 'each text of a row stands once in its file' ' 0 failed' "$("$root/tools/plant" --read | sed 's/.* passed,//')"
}

how_many_were_refused_is_written_down() {
    same 'docs/EVIDENCE.md has the table of tools/wrong_bodies --table' "$("$root/tools/wrong_bodies" --table)" \
        "$(sed -n '/^| Crate | Wrong bodies |/,/^$/p' "$root/docs/EVIDENCE.md")"
}

proved_tests_are_few() {
    local count
    count=$(grep -rh '#\[test\]' --include='*.rt' "$root/crates" | wc -l)
    same 'there are 20 to 60 proved tests' yes "$([ "$count" -ge 20 ] && [ "$count" -le 60 ] && echo yes || echo "$count")"
    same 'crates with proved tests' 'test_memory_of_answers test_memory_of_reports test_memory_of_runs test_threads' \
        "$(grep -rl '#\[test\]' --include='*.rt' "$root/crates" | sed "s|^$root/crates/||; s|/.*||" | sort -u | flat | sed 's/ $//')"
}

# uncalled FILE..: the functions of these tests that are named once, where they are defined: so nothing calls them.
uncalled() {
    local file name
    for file in "$@"; do
        for name in $(sed -n 's/^\([a-z_0-9]*\)() .*/\1/p' "$file"); do
            if [ "$(grep -cw -- "$name" "$file")" -lt 2 ]; then echo "${file##*/}: $name"; fi
        done
    done
}

each_function_of_a_test_is_called() {
    local tests
    mapfile -t tests < <(find "$root/tests" -maxdepth 1 -name '*.sh' ! -name lib.sh)
    same 'no function of a test is left out' '' "$(uncalled "${tests[@]}")"
    printf 'lost() { :; }\nkept() { :; }\ntests kept\n' >lost.sh
    same 'one that is left out is found' 'lost.sh: lost' "$(uncalled lost.sh)"
}

tests wrong_bodies_are_not_lost \
    wrong_bodies_can_be_put_in_their_places \
    how_many_were_refused_is_written_down \
    proved_tests_are_few \
    each_function_of_a_test_is_called
