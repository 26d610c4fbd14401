#!/usr/bin/env bash
# `check FILE..`, `seq FILE..`, `lines FILE..` and `get --lines` by several workers, which read a regular file at offsets, each for itself. Texts are made of
# sizes around the borders between what workers read, and cut and damaged there: each answer is what the text was made for, and what one worker
# answers. So it is of sequences and of JSON Lines, whose elements and lines lie across all borders.
. "$(dirname "$0")/lib.sh"

# BYTES OF A PIECE | PIECES OF A TEXT | TEXTS | WHAT BECOMES OF EACH | OPTIONS. A `-` is the size without --piece. Each number of pieces
# also stands for a byte less and one more. What is cut or damaged is so at each offset, at ends and middle, or around borders of pieces.
texts() {
    cat <<'LINES'
1 | 4 6 9 14 21 37 53 | list string ones | whole cut:each damaged:each |
1 | 4 5 6 12 20 36 | deep slashes blanks | whole cut:each damaged:each |
1 | 4 5 6 7 8 9 12 20 | list | marked | --ignore-bom
7 | 1 2 3 4 5 6 7 11 12 19 20 35 36 37 52 | list string | whole cut:borders damaged:borders |
7 | 4 5 20 36 53 | ones deep slashes blanks | whole cut:borders damaged:borders |
7 | 1 3 4 5 11 36 | list deep | marked | --ignore-bom
7 | 2 5 6 11 20 36 37 | deep | limit:9 | --depth 9
64 | 1 3 4 5 6 11 12 19 20 36 52 68 | list string | whole cut:borders damaged:borders |
64 | 4 5 20 36 | ones slashes blanks | whole cut:borders damaged:borders |
64 | 4 5 6 11 20 36 | deep | limit:130 | --depth 130
64 | 16 17 20 36 | deep | limit:512 |
64 | 4 5 20 | list | marked | --ignore-bom
4096 | 1 4 5 6 11 20 36 | list | whole cut:ends damaged:borders |
4096 | 5 20 | string slashes blanks ones | whole cut:ends damaged:ends |
4096 | 5 20 | deep | limit:512 |
4096 | 20 | deep | limit:65535 | --depth 65535
- | 1 4 5 | list | whole cut:ends damaged:ends |
- | 11 | string slashes | whole cut:ends |
- | 4 5 | blanks ones | whole damaged:ends |
- | 5 | list | marked | --ignore-bom
LINES
}

each_text_is_answered_as_it_was_made() {
    local told
    told=$(texts | python3 "$root/tests/by_offsets.py" "$program" check 2>&1)
    has "$told" ' 0 wrong' " ${told##*, }"
    if [[ $told =~ ([0-9]+)\ right ]]; then passed=$((passed + BASH_REMATCH[1])); fi
}

# BYTES OF A PIECE | BYTES | WHAT STANDS BEFORE THE FIRST SEPARATOR, or `-` | ELEMENTS IN TURN | OPTIONS. A file is read at offsets from a MiB on.
sequences() {
    cat <<'LINES'
2 | 1048576 | - | object nothing number cut bad |
7 | 1048600 | - | object nothing number cut bad feeds |
7 | 1048600 | 1 | nothing nothing number nothing |
64 | 1048580 | - | object ended blank bad cut number nothing |
64 | 1048580 | x | object |
1000 | 1100000 | - | object deep ended nothing | --depth 2
1000 | 1100000 | - | long object number |
4096 | 1500000 | - | object bad feeds ended |
4096 | 1048600 | - | nothing |
262144 | 3000000 | 1 | long number object |
- | 5000000 | - | object ended feeds |
- | 9000000 | - | long long object number |
1073741824 | 2000000 | - | object number |
LINES
}

each_sequence_is_answered_as_it_was_made() {
    local told
    told=$(sequences | python3 "$root/tests/by_offsets.py" "$program" seq 2>&1)
    has "$told" ' 0 wrong' " ${told##*, }"
    if [[ $told =~ ([0-9]+)\ right ]]; then passed=$((passed + BASH_REMATCH[1])); fi
}

# BYTES OF A PIECE | BYTES | `mark` in front, or `-` | LINES IN TURN, or `random` | `ended` or `open` | OPTIONS. A file is read at offsets from a
# MiB on.
json_lines() {
    cat <<'LINES'
2 | 1048576 | - | object nothing number cut bad | ended |
7 | 1048600 | mark | object blank number bad control | open |
7 | 1048600 | mark | nothing nothing number nothing | ended | --ignore-bom
64 | 1048580 | - | object blank bad cut number nothing control | open |
64 | 1048580 | mark | bad | ended | --ignore-bom
64 | 1048576 | - | random | - |
1000 | 1100000 | - | object deep nothing number | ended | --depth 2
1000 | 1100000 | mark | long object number | open | --ignore-bom
1000 | 1048576 | mark | random | - | --ignore-bom
4096 | 1500000 | - | object bad blank number cut | ended | --skip-blank
4096 | 1048600 | - | nothing | ended |
4096 | 1048576 | - | random | - | --depth 1
65536 | 1600000 | - | object | ended |
262144 | 3000000 | mark | long number object control | open |
- | 3000000 | - | object object object object object object object object object bad | ended |
- | 5000000 | - | cut | open |
- | 5000000 | - | number object blank | ended | --skip-blank
- | 9000000 | - | long long object bad number | ended |
- | 9000000 | - | huge bad huge huge object | open |
- | 2000000 | mark | random | - |
8388608 | 20000000 | - | object number object bad | ended |
1073741824 | 2000000 | - | object number control | open |
LINES
}

each_line_is_answered_as_it_was_made() {
    local told
    told=$(json_lines | python3 "$root/tests/by_offsets.py" "$program" lines 2>&1)
    has "$told" ' 0 wrong' " ${told##*, }"
    if [[ $told =~ ([0-9]+)\ right ]]; then passed=$((passed + BASH_REMATCH[1])); fi
}

# The same of the values of each line, of which some have none.
line_values() {
    cat <<'LINES'
64 | 1048576 | - | object object object object object object object object bad | open |
1000 | 1100000 | mark | long object number | open | --ignore-bom
1000 | 1048576 | mark | random | - | --ignore-bom --format tsv
4096 | 1100000 | - | object bad blank number cut | ended | --skip-blank
4096 | 1100000 | - | random | - | --format csv --null -
65536 | 1600000 | - | object | ended | --format tsv --header
- | 3000000 | - | object object object object object object object object object bad | ended |
- | 9000000 | - | long long object bad number | ended | --format csv --header
- | 9000000 | - | huge bad huge huge object | open |
- | 1500000 | mark | random | - |
- | 20000000 | - | object | ended |
8388608 | 20000000 | - | long object number object bad | ended |
LINES
}

each_row_is_what_one_worker_writes() {
    local told
    told=$(line_values | python3 "$root/tests/by_offsets.py" "$program" values 2>&1)
    has "$told" ' 0 wrong' " ${told##*, }"
    if [[ $told =~ ([0-9]+)\ right ]]; then passed=$((passed + BASH_REMATCH[1])); fi
}

# A file without a separator, and one whose last bytes go.
a_sequence_may_have_one_element_or_none() {
    local workers
    head -c 2000000 /dev/zero | tr '\0' ' ' >blanks
    { printf '\036['; cat blanks; printf ']'; } >one
    for workers in 1 2 4 64; do
        same "no separator, $workers workers" '1 | 0..2000000 unmarked |' "$("$program" seq --workers $workers blanks >out; echo "$? | $(flat <out) |")"
        same "one element, $workers workers" '0 | 1..2000003 accepted |' "$("$program" seq --workers $workers one >out; echo "$? | $(flat <out) |")"
        same "names, $workers workers" 'one: 1..2000003 accepted' "$("$program" seq -H --workers $workers one)"
        same "a mark is ignored, $workers workers" '4..2000006 accepted' "$({ printf '\357\273\277'; cat one; } >marked; "$program" seq --ignore-bom --workers $workers marked)"
        same "a mark is none, $workers workers" '0..3 unmarked 4..2000006 accepted' "$("$program" seq --workers $workers marked | flat)"
        same "unique names, $workers workers" '1..2000016 repeated name at 2000009' \
            "$({ printf '\036['; cat blanks; printf '{"a":1,"a":2}]'; } >repeats; "$program" seq --unique-names --workers $workers repeats)"
    done
}

# FILES | OPTIONS | STATUS | OUTPUT, with a space for each line's end | ERRORS, so too
calls() {
    cat <<'LINES'
good | | 0 | accepted |
bad | | 1 | stopped at 1300000 |
short | | 1 | truncated |
empty | | 1 | truncated |
folder | | 2 | | jx: folder: is a directory
missing | | 2 | | jx: missing: cannot open: No such file or directory
/proc/cpuinfo | | 1 | stopped at 0 |
/proc/self/mem | | 2 | | jx: /proc/self/mem: read failed: Input/output error
good | -q | 0 | |
bad | -q | 1 | |
bad | --piece 1073741824 | 1 | stopped at 1300000 |
good | --piece 1000000 | 0 | accepted |
deep | --depth 3 | 1 | too deep at 3 |
good bad empty | | 1 | good: accepted bad: stopped at 1300000 empty: truncated |
good missing bad | | 2 | good: accepted bad: stopped at 1300000 | jx: missing: cannot open: No such file or directory
good folder short | -q | 2 | | jx: folder: is a directory
good /proc/self/mem good | | 2 | good: accepted good: accepted | jx: /proc/self/mem: read failed: Input/output error
bad good short | -l | 1 | bad short |
good bad | --format gnu | 1 | bad:1:1300001: a control character in a string must be escaped (byte 1300000) |
good | --format json | 0 | {"name":"good","verdict":"accepted"} |
names | --unique-names | 1 | repeated name at 7 |
names | | 0 | accepted |
LINES
}

make_files() {
    python3 - <<'CODE'
good = b"[1" + b',"abc"' * 300000 + b"]"
open("good", "wb").write(good)
open("bad", "wb").write(good[:1300000] + b"\x01" + good[1300001:])
open("short", "wb").write(good[:-1])
open("empty", "wb").close()
open("deep", "wb").write(b"[" * 600000 + b"]" * 600000)
open("names", "wb").write(b'{"a":1,"a":2}' + b" " * 3000000)
CODE
    mkdir folder
}

# asked WORD..: status and both outputs of a call, each line's end a space.
asked() {
    local status=0
    "$program" check "$@" >out 2>err </dev/null || status=$?
    printf '%s | %s | %s' "$status" "$(flat <out)" "$(flat <err)"
}

each_call_is_answered_as_its_line_says() {
    local files options status output errors workers
    while IFS='|' read -r files options status output errors; do
        for workers in 1 2 4 64; do
            # shellcheck disable=SC2086
            same "check $options --workers $workers $files" "$(flat <<<"$status") | $(flat <<<"$output") | $(flat <<<"$errors")" \
                "$(asked $options --workers "$workers" $files)"
        done
    done < <(calls)
}

# What has no offsets of its own is read once, to its end.
what_is_no_regular_file_is_read_as_a_stream() {
    mkfifo pipe
    cat good >pipe &
    same 'a pipe with a name' '0 | accepted |' "$(asked pipe | sed 's/ *$//')"
    wait
    same 'behind a command' accepted "$(cat good | "$program" check)"
    same 'standard input that is a file is read to its end' "$(printf 'accepted\n0')" "$({ "$program" check; wc -c; } <good)"
    same 'and from where it stands' "$(printf '[1]\naccepted')" "$({ head -c 4; "$program" check --workers 4; } < <(printf '[1]\n[2]'))"
    same 'both' "$(printf 'good: accepted\n-: truncated')" "$("$program" check good - <short)"
}

make_files
tests each_text_is_answered_as_it_was_made each_sequence_is_answered_as_it_was_made each_line_is_answered_as_it_was_made each_row_is_what_one_worker_writes a_sequence_may_have_one_element_or_none each_call_is_answered_as_its_line_says what_is_no_regular_file_is_read_as_a_stream
