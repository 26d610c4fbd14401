#!/usr/bin/env bash
# Saved indexes: those of texts that dice make, in chunks from 64 bytes and fed by slices of several sizes, are byte by byte those that
# saved.py makes by docs/FORMAT.md and RFC 8259 alone; bytes of indexes, intact and not, say what it reads in them, or are refused for the same.
# `jx save` writes the same as saved.py, and of what is no text nothing. `jx at --index` and `jx get --index` answer as by_index.py does.
. "$(dirname "$0")/lib.sh"
calls=$root/crates/test_calls_of_indexes/out/test_calls_of_indexes
# Another one each day; JX_SEED plays one again.
seed=${JX_SEED:-$(date +%Y%m%d)}
model() { python3 "$root/tests/saved.py" "$@"; }

# lines LINE..: each on a line of its own.
lines() { printf '%s\n' "$@"; }

indexes_are_those_of_the_model() {
    model lines "$seed" 1000 >lines
    model answers <lines >wanted
    "$calls" <lines >got
    same 'each line has an answer' 2000 "$(wc -l <got)"
    same 'all are equal' '' "$(diff wanted got | head -n 4 | cut -c 1-400)"
}

# Else a wrong byte might pass too.
a_wrong_byte_is_told() {
    sed '7s/.$/x/' wanted >other
    same 'one line differs' 1 "$(diff other got | grep -c '^>')"
}

files_are_saved_as_by_the_model() {
    local number options wrong=''
    mkdir -p texts && (cd texts && model files "$seed" 400)
    for number in $(seq 0 399); do
        options=$(cat "texts/$number.options")
        "$program" save $options "texts/$number.json" >got.jxi 2>told || wrong="$wrong $number, status $?;"
        cmp -s got.jxi "texts/$number.jxi" || wrong="$wrong $number: other bytes;"
        [ ! -s told ] || wrong="$wrong $number: $(cat told);"
        cat "texts/$number.json" | "$program" save $options | cmp -s - "texts/$number.jxi" || wrong="$wrong $number: other bytes of a pipe;"
        "$program" save $options --file "texts/$number.json" | cmp -s - "texts/$number.jxi" || wrong="$wrong $number: other bytes by --file;"
    done
    same "texts of seed $seed" '' "$wrong"
}

# A text of many chunks, and of several levels: batches end within chunks, and chunks are longer than batches.
a_long_text_is_saved_as_by_the_model() {
    local chunk
    python3 -c 'print("[" + ",".join("{\"k\":[%d, \"%s\"]}" % (n, "x" * (n % 71)) for n in range(20000)) + "]")' >long.json
    for chunk in 64 128 4096 32768 524288 1048576; do
        model file long.json --chunk $chunk >wanted.jxi
        "$program" save --chunk $chunk long.json | cmp - wanted.jxi
        same "chunks of $chunk" '0 0' "${PIPESTATUS[*]}"
        (head -c 100001 long.json; sleep 0.05; tail -c +100002 long.json) | "$program" save --chunk $chunk | cmp - wanted.jxi
        same "chunks of $chunk, of a pipe" '0 0 0' "${PIPESTATUS[*]}"
    done
    python3 -c 'print("{" + ",".join("\"%s\":[%d,%s]" % ("name" * (n % 7) + str(n), n, "{\"a\":1}" * (n % 3 == 0) or 2) for n in range(20000)) + "}")' >members.json
    for chunk in 64 4096 32768 524288; do
        model file members.json --names --chunk $chunk >wanted.jxi
        "$program" save --names --chunk $chunk members.json | cmp - wanted.jxi
        same "tables of names, chunks of $chunk" '0 0' "${PIPESTATUS[*]}"
        (head -c 100001 members.json; sleep 0.05; tail -c +100002 members.json) | "$program" save --chunk $chunk --names | cmp - wanted.jxi
        same "tables of names, chunks of $chunk, of a pipe" '0 0 0' "${PIPESTATUS[*]}"
    done
    same 'the size of an index' "$((64 + 24 * (8192 / 32 + 4)))" "$(head -c 8388606 /dev/zero | tr '\0' 1 | sed 's/^/[/; s/$/]/' | "$program" save | wc -c)"
    "$program" save --progress always long.json 2>told | cmp - <(model file long.json)
    same 'progress changes no byte' '0 0' "${PIPESTATUS[*]}"
}

# WHAT THE BORDERS OF CHUNKS CUT | BYTES | OPTIONS: several workers write what one writes. A file is read at offsets from a MiB on, by chunks of
# 16384 bytes or more.
shared_texts() {
    cat <<'LINES'
records | 1048576 |
records | 3000001 | --chunk 16384
records | 1500000 | --chunk 4096
records | 1200000 | --names
records | 1200000 | --unique-names
numbers | 1200000 |
digits | 1200000 | --chunk 65536
literals | 1048577 | --chunk 16384
escapes | 1300000 |
letters | 1300000 | --ignore-bom
deep | 1300000 | --chunk 16384
deep | 1300000 | --depth 40
blanks | 1200000 | --chunk 131072
mixed | 4000000 | --chunk 16384
mixed | 4000000 | --chunk 1048576
string | 1200000 |
closes | 1200000 | --chunk 65536
LINES
}

several_workers_write_what_one_writes() {
    local told
    told=$(shared_texts | model shared "$program" 2>&1)
    has "${told##*$'\n'}" ' 0 wrong' " ${told##*, }"
    same 'none is wrong' '' "$(printf '%s' "$told" | grep ': text ' | head -n 4)"
    if [[ $told =~ ([0-9]+)\ right ]]; then passed=$((passed + BASH_REMATCH[1])); fi
}

names_may_have_to_be_unique() {
    printf '{"a":1,"b":{"a":2}}' >unique.json
    "$program" save --unique-names --chunk 64 unique.json | cmp - <(model file unique.json --chunk 64 --unique-names)
    same 'the index says so' '0 0' "${PIPESTATUS[*]}"
    same 'a name that is repeated' "$(lines 'status 1' 'err: jx: -: repeated name at 7')" "$(said '{"a":1,"\\u0061":2}' save --unique-names)"
    same 'else it may be' 64 "$(printf '{"a":1,"a":2}' | "$program" save | wc -c)"
    "$program" save --unique-names --names --chunk 64 unique.json | cmp - <(model file unique.json --chunk 64 --unique-names --names)
    same 'with tables of names too' '0 0' "${PIPESTATUS[*]}"
    same 'a name that is repeated, where tables are wanted' "$(lines 'status 1' 'err: jx: -: repeated name at 7')" "$(said '{"a":1,"\\u0061":2}' save --unique-names --names)"
}

what_is_no_text_has_no_index() {
    same 'no text' "$(lines 'status 1' 'err: jx: -: stopped at 3')" "$(said nulx save)"
    same 'no text has names' "$(lines 'status 1' 'err: jx: -: truncated')" "$(said '{"a":' save --names)"
    same 'too short a text' "$(lines 'status 1' 'err: jx: -: truncated')" "$(said '[1,' save)"
    same 'no byte' "$(lines 'status 1' 'err: jx: -: truncated')" "$(said '' save)"
    same 'a byte order mark alone' "$(lines 'status 1' 'err: jx: -: truncated')" "$(said '\357\273\277' save --ignore-bom)"
    same 'a byte order mark' "$(lines 'status 1' 'err: jx: -: stopped at 0')" "$(said '\357\273\2771' save)"
    same 'too deep a text' "$(lines 'status 1' 'err: jx: -: too deep at 2')" "$(said '[[[]]]' save --depth 2)"
    (cat long.json; echo x) >no.json
    same 'a fault at the end of a long text' "$(lines 'status 1' "err: jx: no.json: stopped at $(wc -c <long.json)")" "$(said '' save --chunk 64 no.json)"
    same 'the verdict is that of check' "jx: no.json: $("$program" check no.json)" "$("$program" save no.json 2>&1)"
}

faults_are_told() {
    same 'no file' "$(lines 'status 2' 'err: jx: missing.json: cannot open: No such file or directory')" "$(said '' save missing.json)"
    mkdir -p folder
    same 'a folder' "$(lines 'status 2' 'err: jx: folder: is a directory')" "$(said '' save --file folder)"
    same 'a folder as standard input' "$(lines 'jx: -: read failed: Is a directory' 'status 2')" "$("$program" save <folder 2>&1; echo "status $?")"
    if [ -w /dev/full ]; then
        same 'nowhere to write to' "$(lines 'jx: write failed: No space left on device' 'status 2')" "$(printf null | "$program" save 2>&1 >/dev/full; echo "status $?")"
        same 'nowhere to tell to' 'status 1' "$(printf nulx | "$program" save 2>/dev/full; echo "status $?")"
    fi
    if command -v script >/dev/null; then
        same 'a terminal' 'jx: an index is not written to a terminal: write it to a file or a pipe' "$(timeout 20 script -qec "'$program' save unique.json" /dev/null </dev/null | tr -d '\r')"
        same 'a terminal, and a text from a file' 'jx: an index is not written to a terminal: write it to a file or a pipe' \
            "$(timeout 20 script -qec "'$program' save <unique.json" /dev/null </dev/null | tr -d '\r')"
    fi
}

pointers_by_an_index_are_those_of_a_reader() {
    python3 "$root/tests/by_index.py" "$seed" 300 >answers
    same "pointers by indexes of seed $seed" '' "$(grep -v ' passed, ' answers | head -n 20 | cut -c 1-600)"
    same 'each text has eight answers or more' yes "$([ "$(tail -n 1 answers | cut -d ' ' -f 1)" -ge 2400 ] && echo yes)"
}

# looked WORD..: what looking up by an index comes to.
looked() { said '' at --index "$@"; }

what_is_wrong_with_an_index_is_told() {
    printf '[1,{"a":"b"}]' >two.json
    "$program" save two.json >two.jxi
    same 'a look-up' "$(lines 'status 1' 'out: found string 8..11' 'out: past end at token 0')" "$(looked two.jxi --file two.json /1/a /2)"
    same 'a word that is no pointer' "$(lines 'status 2' 'err: jx: x: no slash: a FILE stands behind --file')" "$(looked two.jxi --file two.json /1/a x)"
    lines '' /1/a >list
    same 'a list' "$(lines 'status 0' 'out: found array 0..13' 'out: found string 8..11')" "$(looked two.jxi --file two.json --pointers list)"
    same 'no index' "$(lines 'status 2' 'err: jx: missing.jxi: cannot open: No such file or directory')" "$(looked missing.jxi --file two.json /1)"
    same 'no text' "$(lines 'status 2' 'err: jx: missing.json: cannot open: No such file or directory')" "$(looked two.jxi --file missing.json /1)"
    mkdir -p folder
    same 'a folder for an index' "$(lines 'status 2' 'err: jx: folder: is a directory')" "$(looked folder --file two.json /1)"
    same 'a folder for a text' "$(lines 'status 2' 'err: jx: folder: is a directory')" "$(looked two.jxi --file folder /1)"
    same 'a text for an index' "$(lines 'status 2' 'err: jx: two.json: not a saved index')" "$(looked two.json --file two.json /1)"
    same 'nothing for an index' "$(lines 'status 2' 'err: jx: /dev/null: not a saved index')" "$(looked /dev/null --file two.json /1)"
    (printf '\211jxidx\n\002'; tail -c +9 two.jxi) >other.jxi
    same 'another version' "$(lines 'status 2' 'err: jx: other.jxi: another version')" "$(looked other.jxi --file two.json /1)"
    head -c 40 two.jxi >short.jxi
    same 'a part of an index' "$(lines 'status 2' 'err: jx: short.jxi: cut short')" "$(looked short.jxi --file two.json /1)"
    (cat two.jxi; echo) >longer.jxi
    same 'a byte more' "$(lines 'status 2' 'err: jx: longer.jxi: more bytes than an index has')" "$(looked longer.jxi --file two.json /1)"
    (head -c 20 two.jxi; printf x; tail -c +22 two.jxi) >damaged.jxi
    same 'another byte' "$(lines 'status 2' 'err: jx: damaged.jxi: damaged')" "$(looked damaged.jxi --file two.json /1)"
    printf '[1,{"a":"b"}] ' >longer.json
    same 'another size' "$(lines 'status 2' 'err: jx: longer.json: 14 bytes, and the index is of 13')" "$(looked two.jxi --file longer.json /1)"
    same 'no regular file' "$(lines 'status 2' 'err: jx: /dev/null: 0 bytes, and the index is of 13')" "$(looked two.jxi --file /dev/null /1)"
    printf '[1,{"a":"c"}]' >changed.json
    same 'another text of that size' "$(lines 'status 2' 'err: jx: changed.json: changed in 0..13')" "$(looked two.jxi --file changed.json /1)"
    cp changed.json $'a\nb.json'
    same 'a name of two lines' "$(lines 'status 2' 'err: jx: a\x0Ab.json: changed in 0..13')" "$(looked two.jxi --file $'a\nb.json' /1)"
    if [ -w /dev/full ]; then
        same 'nowhere to write to' "$(lines 'jx: write failed: No space left on device' 'status 2')" "$("$program" at --index two.jxi --file two.json /1 2>&1 >/dev/full; echo "status $?")"
    fi
}

an_index_says_how_its_text_is_read() {
    printf '\357\273\277[[1]]' >mark.json
    "$program" save --ignore-bom --depth 2 --unique-names mark.json >mark.jxi
    same 'as it was saved' "$(lines 'status 0' 'out: found number 5..6')" "$(looked mark.jxi --file mark.json /0/0)"
}

# The program gets no signal, as where what calls it ignores it. The reader is gone before the call begins.
a_closed_pipe_ends_it_without_a_word() {
    exec 5> >(true)
    wait $!
    (trap '' PIPE; "$program" save --chunk 64 long.json 2>told >&5; echo $? >status)
    exec 5>&-
    same 'a reader that goes away' 'status 2, told: ' "status $(cat status), told: $(cat told)"
}

if [ ! -x "$calls" ]; then
    echo "${0##*/}: there is no $calls"
else
    all='indexes_are_those_of_the_model a_wrong_byte_is_told'
fi
echo "saved.sh: the seed is $seed"
tests $all \
    files_are_saved_as_by_the_model \
    a_long_text_is_saved_as_by_the_model \
    several_workers_write_what_one_writes \
    names_may_have_to_be_unique \
    what_is_no_text_has_no_index \
    faults_are_told \
    pointers_by_an_index_are_those_of_a_reader \
    what_is_wrong_with_an_index_is_told \
    an_index_says_how_its_text_is_read \
    a_closed_pipe_ends_it_without_a_word
