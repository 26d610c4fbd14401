#!/usr/bin/env bash
# `index` of many values, whose lines several workers make: what is written is what one worker writes, byte for byte, with a line for each value.
# Of a list of zeros it is also what awk writes.
. "$(dirname "$0")/lib.sh"

# VALUES | WORKERS. Workers make pages of 16384 lines or more, in rounds of a page for each worker, where there are two pages or more. The
# numbers stand at the borders of these, in several rounds, and in a part of one. From 131,072 values for each worker on pages are longer. A
# text without values is refused.
texts() {
    cat <<'LINES'
0 | 2 4 64
1 | 2 4 64
16385 | 4
32767 | 2 4 64
32768 | 2 3 4 64
32769 | 2 4
49151 | 2 3 4
49152 | 2 3 4 64
49153 | 2 3 4
65536 | 2 4
65537 | 2 4
98304 | 2 3 4 64
98305 | 2 3 4
131073 | 4
262143 | 2
262160 | 2 3 64
300001 | 2 3 4 16 64
600001 | 4 16 64
LINES
}

# made KIND VALUES: a text of so many values: a list of zeros, an object, or a list in which objects, lists and others take turns.
made() {
    awk -v kind="$1" -v count="$2" 'BEGIN {
        if (count == 0) exit
        printf "%s", kind == "object" ? "{" : "["
        for (left = count - 1; left > 0; left--) {
            if (kind == "zeros") one = "0"
            else if (kind == "object") one = "\"n" left "\":" (left % 3 ? "true" : "\"a b\"")
            else if (left % 5 == 0 && left > 2) { one = "{\"id\":[-1.5e3]}"; left -= 2 }
            else one = left % 5 == 1 ? " []" : left % 5 == 2 ? "null" : "\"\\u00e9\""
            printf "%s%s", comma, one
            comma = ","
        }
        printf "%s", kind == "object" ? "}" : "]"
    }'
}

# lines_of_zeros VALUES: what `index` writes for such a list.
lines_of_zeros() {
    awk -v count="$1" 'BEGIN {
        if (count == 0) { print "truncated"; exit }
        print "accepted"
        print "0 array 0.." (count == 1 ? 2 : 2 * count - 1) " - 0 -"
        for (at = 1; at < count; at++) print at " number " 2 * at - 1 ".." 2 * at " 0 " at - 1 " -"
    }'
}

several_workers_write_what_one_writes() {
    local count workers kind each
    while IFS='|' read -r count workers; do
        count=$(flat <<<"$count")
        for kind in zeros object mixed; do
            made $kind "$count" >text
            "$program" index --workers 1 text >one
            same "$count values, $kind: a line for each" $((count + 1)) "$(wc -l <one | flat)"
            if [ $kind = zeros ]; then same "$count zeros" '' "$(lines_of_zeros "$count" | cmp - one 2>&1)"; fi
            for each in $workers; do
                same "$count values, $kind, $each workers" '' "$("$program" index --workers "$each" text 2>&1 | cmp - one 2>&1)"
            done
        done
    done < <(texts)
}

a_full_output_is_told() {
    local each
    made mixed 150000 >text
    if [ ! -w /dev/full ]; then return; fi
    for each in 1 2 4 64; do
        same "nowhere to write to, $each workers" $'jx: write failed: No space left on device\nstatus 2' \
            "$("$program" index --workers "$each" text 2>&1 >/dev/full; echo "status $?")"
    done
}

tests several_workers_write_what_one_writes \
    a_full_output_is_told
