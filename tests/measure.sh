#!/usr/bin/env bash
# tools/measure makes its inputs, and prints each table with a figure for each input.
. "$(dirname "$0")/lib.sh"

measured() { "$root/tools/measure" --program "$program" --folder "$room/inputs" --size 1 --large 2 --runs 1 "$@" 2>&1; }

each_table_is_printed() {
    local said table
    said=$(measured --on records,ones,backslashes --tables workers,commands,lines,pointers,memory)
    same 'the status' 0 $?
    for table in '| `check` | records | ones | backslashes | mean | worst |' '| 4 workers over 1 | ' '| processor time, 4 over 1 | ' '| `check --unique-names` | ' '| `at`, 1,000 | ' '| `each` | ' \
        '| lines over `check` | records, 1 | records, 4 |' '| `seq --live` | ' '| `at --index`, ms |' \
        '| `index` | ' '| records, 2 MB | ' '| memory | input | MB | what it is for |' '| `lines -q`, four | 2 MB by a pipe | '; do
        has "a table with $table" "$table" "$said"
    done
    same 'a row has a cell for each input, the mean and the worst' 7 \
        "$(grep -m 1 '^| `save` | ' <<<"$said" | tr -cd '|' | wc -c)"
    same 'the large text is removed' '' "$(ls inputs | grep large)"
}

each_input_is_accepted() {
    local input
    for input in inputs/*.json; do same "$input" accepted "$("$program" check "$input")"; done
    same 'lines' '' "$("$program" lines -q inputs/records-1.jsonl || echo refused)"
    same 'a sequence' '' "$("$program" seq -q inputs/records-1.seq || echo refused)"
}

a_document_takes_the_place_of_a_made_one() {
    mkdir real && printf '{"id":505874924095815681,"text":"a real one"}' >real/twitter.json
    measured --on tweets --documents real --folder "$room/others" --tables workers >/dev/null
    same 'the document stands in the input' '[{"id":505874924095815681,"text":"a real one"},' "$(head -c 47 others/tweets-1.json)"
}

# A copy of the page gets the table and its build; all else stays.
the_page_gets_a_table() {
    local said
    mkdir -p copy/tools copy/docs
    cp "$root/tools/measure" copy/tools && cp "$root/docs/PERFORMANCE.md" copy/docs && cp "$root/README.md" copy
    said=$(copy/tools/measure --program "$program" --folder "$room/inputs" --size 1 --large 0 --runs 1 --on records --tables memory --write 2>err)
    same 'a table of another build: the status' 1 $?
    has 'and its name' 'docs/PERFORMANCE.md has a table of another build: `check`' "$(cat err)"
    same 'this one is new' '' "$(grep 'another build: memory' err)"
    has 'so has README.md' 'README.md has a row of another build: time of 4 workers over that of 1' "$(cat err)"
    same 'README.md is as it was' '' "$(cmp "$root/README.md" copy/README.md 2>&1)"
    same 'the table stands in the page' "$(grep '^|' <<<"$said")" "$(awk '/^\| memory \|/ { here = 1 } here && !/^\|/ { exit } here' copy/docs/PERFORMANCE.md)"
    has 'with its build' "$(tail -n 1 <<<"$said" | cut -c 1-30)" "$(grep -A 100 '^| memory |' copy/docs/PERFORMANCE.md | grep -m 1 '^Build ')"
    same 'all before it is as it was' "$(sed '/^| memory |/,$d' "$root/docs/PERFORMANCE.md")" "$(sed '/^| memory |/,$d' copy/docs/PERFORMANCE.md)"
    copy/tools/measure --program "$program" --folder "$room/inputs" --size 1 --large 0 --runs 1 --tables workers --write >said 2>&1
    same 'a row of README.md is that of the table' "$(sed -n 's/^| 4 workers over 1 //p' said | cut -d '|' -f 2,3,4,10,11,16)" \
        "$(sed -n 's/^| time of 4 workers over that of 1 |\(.*\) |$/\1 /p' copy/README.md)"
    sed -i 's/^| memory |/| mind |/' copy/docs/PERFORMANCE.md
    has 'a table that is not there is reported' 'has 0 tables that begin with | memory |' \
        "$(copy/tools/measure --program "$program" --folder "$room/inputs" --size 1 --large 0 --runs 1 --on records --tables memory --write 2>&1)"
}

tests each_table_is_printed \
    each_input_is_accepted \
    a_document_takes_the_place_of_a_made_one \
    the_page_gets_a_table
