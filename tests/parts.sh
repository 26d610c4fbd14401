#!/usr/bin/env bash
# A text in parts: jx part, jx join and jx whole, with each status and each line that they have.
. "$(dirname "$0")/lib.sh"

text='[1,{"a":true},2]'
size=${#text}

# lines LINE..: each on a line of its own.
lines() { printf '%s\n' "$@"; }

# run START END WORD..: the run of the text from one offset to the other, with this --from.
run() {
    local start=$1 end=$2
    shift 2
    printf %s "${text:start:end-start}" | "$program" part --from "$start" "$@"
}

# told FILE.. -- WORD..: what the program says of the files, one behind another.
told() {
    local files=() status=0
    while [ "$1" != -- ]; do
        files+=("$1")
        shift
    done
    shift
    cat "${files[@]}" </dev/null | "$program" "$@" >out 2>err || status=$?
    printf 'status %s\n' "$status"
    sed 's/^/out: /' out
    sed 's/^/err: /' err
}

# refused LINE: a fault with this line.
refused() { lines 'status 2' "err: jx: -: $1"; }

make_runs() {
    run 0 5 >a
    run 5 11 >b
    run 11 $size >c
    for at in 0 5 $size; do run $at $at >empty.$at; done
    for part in 0-5 5-11 11-16; do printf %s "${text:${part%-*}:${part#*-}-${part%-*}}" | "$program" part >plain.$part; done
}

each_text_of_the_table_may_be_cut_anywhere() {
    local said
    said=$(python3 "$root/tests/parts/cuts.py" "$program" "$root/tests/verdicts" 2>&1)
    if [[ $said =~ ^([0-9]+)' verdicts are right'$ ]] && [ "${BASH_REMATCH[1]}" -gt 800 ]; then said=right; fi
    same 'texts that are cut' right "$said"
}

runs_come_to_the_verdict() {
    same 'three parts' "$(lines 'status 0' 'out: accepted')" "$(told a b c -- whole --to $size)"
    same 'quiet' 'status 0' "$(told a b c -- whole --to $size -q)"
    same 'a file' "$(lines 'status 0' 'out: accepted')" "$(cat a b c >all; said '' whole --to $size --file all)"
    same 'no text' "$(lines 'status 1' 'out: truncated')" "$(told a b -- whole --to 11)"
    same 'no text, quiet' 'status 1' "$(told a b -- whole --to 11 --quiet)"
    same 'offsets are those of the whole' "$(lines 'status 1' 'out: stopped at 13')" "$(printf '%s' ',}' | "$program" part --from 12 >d; run 0 12 >front; told front d -- whole --to 14)"
    same 'a part in the middle alone' "$(lines 'status 1' 'out: stopped at 5')" "$(told b -- whole --from 5 --to 11)"
    same 'no offsets in the parts' "$(lines 'status 0' 'out: accepted')" "$(told plain.0-5 plain.5-11 plain.11-16 -- whole --to $size)"
    same 'depth' "$(lines 'status 1' 'out: too deep at 3')" "$(run 0 $size --depth 1 >flat; told flat -- whole --to $size --depth 1)"
}

parts_may_be_empty() {
    local runs
    for runs in 'empty.0 a b c' 'a empty.5 b c' 'a b c empty.16' 'empty.0 a empty.5 empty.5 b c empty.16'; do
        same "runs $runs" "$(lines 'status 0' 'out: accepted')" "$(told $runs -- whole --to $size)"
    done
    same 'nothing at all' "$(lines 'status 1' 'out: truncated')" "$(told empty.0 -- whole --to 0)"
}

a_byte_order_mark_may_be_left_out() {
    printf '\357\273\277%s' "$text" >marked
    same 'a mark is refused' "$(lines 'status 1' 'out: stopped at 0')" "$("$program" part --from 0 --file marked >m; told m -- whole --to 19)"
    same 'a mark that is left out' "$(lines 'status 0' 'out: accepted')" "$(tail -c +4 marked | "$program" part --from 3 >m; told m -- whole --from 3 --to 19)"
}

what_does_not_meet_is_told() {
    same 'a gap' "$(refused 'run 1: begins at 11, where 5 was due')" "$(told a c -- whole --to $size)"
    same 'a part twice' "$(refused 'run 1: begins at 0, where 5 was due')" "$(told a a b c -- whole --to $size)"
    same 'another order' "$(refused 'run 1: begins at 0, where 11 was due')" "$(told b a c -- join)"
    same 'the first is missing' "$(refused 'the runs cover 5..16 and not 0..16')" "$(told b c -- whole --to $size)"
    same 'the last is missing' "$(refused 'the runs cover 0..11 and not 0..16')" "$(told a b -- whole --to $size)"
    same 'the end is said to be nearer' "$(refused 'the runs cover 0..16 and not 0..11')" "$(told a b c -- whole --to 11)"
    same 'another beginning' "$(refused 'the runs cover 0..16 and not 3..16')" "$(told a b c -- whole --from 3 --to $size)"
    same 'an end before the beginning' "$(refused 'the runs cover 5..11 and not 11..5')" "$(told b -- whole --from 11 --to 5)"
    same 'no offsets, and one is missing' "$(refused 'the runs cover 0..11 and not 0..16')" "$(told plain.0-5 plain.5-11 -- whole --to $size)"
    same 'an offset behind none' "$(refused 'run 0: has no --from, as others have')" "$(told plain.0-5 b c -- whole --to $size)"
    same 'none behind an offset' "$(refused 'run 1: has no --from, as others have')" "$(told a plain.5-11 c -- whole --to $size)"
    same 'another depth' "$(refused 'run 1: read with depth 3')" "$(run 5 11 --depth 3 >deep; told a deep c -- whole --to $size)"
    same 'another depth than is asked for' "$(refused 'run 0: read with depth 512')" "$(told a b c -- join --depth 511)"
    same 'nothing' "$(refused 'no runs')" "$(told /dev/null -- whole --to 0)"
    same 'nothing to join' "$(refused 'no runs')" "$(told /dev/null -- join)"
}

# put FILE AT BYTES: the file with other bytes from an offset on.
put() { head -c "$2" "$1" && printf %b "$3" && tail -c +$(($2 + 1 + $(printf %b "$3" | wc -c))) "$1"; }

what_is_no_run_is_told() {
    local at bad why
    same 'a text' "$(refused 'run 0: not a run')" "$(told marked -- join)"
    same 'a text behind a run' "$(refused 'run 1: not a run')" "$(told a marked -- join)"
    same 'another version' "$(refused 'run 0: of another version')" "$(put a 7 '\002' >bad; told bad -- join)"
    same 'a size that no run has' "$(refused 'run 0: not well formed')" "$(put a 12 '\377\377\377\377' >bad; told bad -- join)"
    same 'a size that is too small' "$(refused 'run 0: not well formed')" "$(put a 12 '\000\000\000\017' >bad; told bad -- join)"
    same 'a byte that changed' "$(refused 'run 0: damaged')" "$(put a 40 '\377' >bad; told bad -- join)"
    same 'a run that ends early' "$(refused 'run 1: cut short')" "$(head -c -1 b >bad; told a bad -- join)"
    for ((at = 1; at < $(wc -c <empty.0); at++)); do
        head -c $at empty.0 >bad
        bad=$(told bad -- join)
        # What has fewer bytes than the magic and the version is no run.
        if [ $at -lt 8 ]; then why='not a run'; else why='cut short'; fi
        if [ "$bad" != "$(refused "run 0: $why")" ]; then echo "$at: $bad"; fi
    done >early
    same 'each beginning of a run' '' "$(cat early)"
    for ((at = 0; at < $(wc -c <empty.0); at++)); do
        put empty.0 $at '\125' >bad
        if cmp -s bad empty.0; then continue; fi
        if "$program" join <bad >out 2>err; then echo "$at: taken"; fi
        if [ -s out ]; then echo "$at: $(cat out)"; fi
    done >changed
    same 'each byte that changed is told, and nothing is written' '' "$(cat changed)"
}

ends_that_fail_are_told() {
    mkdir folder
    same 'no file' "$(lines 'status 2' 'err: jx: missing: cannot open: No such file or directory')" "$(said '' part --file missing)"
    same 'no file of runs' "$(lines 'status 2' 'err: jx: missing: cannot open: No such file or directory')" "$(said '' join --file missing)"
    for command in 'part' 'join' 'whole --to 3'; do
        same "a folder: $command" "$(lines 'status 2' 'err: jx: folder: is a directory')" "$(said '' $command --file folder)"
    done
    if [ -w /dev/full ]; then
        for command in 'part' 'join' 'whole --to 5 --from 0'; do
            same "nowhere to write to: $command" "$(lines 'jx: write failed: No space left on device' 'status 2')" "$("$program" $command <a 2>&1 >/dev/full; echo "status $?")"
        done
        same 'quiet, and nowhere to write to' 'status 1' "$("$program" whole --to 5 -q <a 2>&1 >/dev/full; echo "status $?")"
    fi
    has 'an offset that no part has' "err: error: invalid value '18446744073709551615' for '--from <N>': 18446744073709551615 is not in 0..=9223372036854775807" \
        "$(said 12 part --from 18446744073709551615)"
    same 'the last offset' 'status 0' "$(said 12 part --from 9223372036854775807 | head -n 1)"
    same 'a run from there' "$(lines 'status 1' 'out: stopped at 9223372036854775808')" \
        "$(printf '1x' | "$program" part --from 9223372036854775807 >far; said '' whole --file far --from 9223372036854775807 --to 9223372036854775809)"
}

if ! command -v python3 >/dev/null; then
    echo 'parts.sh: skipped: there is no python3'
    echo 'parts.sh: 0 passed, 0 failed'
    exit 0
fi
make_runs
tests each_text_of_the_table_may_be_cut_anywhere \
    runs_come_to_the_verdict \
    parts_may_be_empty \
    a_byte_order_mark_may_be_left_out \
    what_does_not_meet_is_told \
    what_is_no_run_is_told \
    ends_that_fail_are_told
