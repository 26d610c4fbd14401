#!/usr/bin/env bash
# Indexes of lines: those of texts that dice make, in chunks from 64 bytes and fed by slices of several sizes, are byte by byte those that
# line_index.py makes by docs/FORMAT.md alone. By them a line begins where it does, and bytes of indexes, intact and not, are read or refused alike.
. "$(dirname "$0")/lib.sh"
calls=$root/crates/test_calls_of_indexes/out/test_calls_of_indexes
# Another one each day; JX_SEED plays one again.
seed=${JX_SEED:-$(date +%Y%m%d)}
model() { python3 "$root/tests/line_index.py" "$@"; }

# lines LINE..: each on a line of its own.
lines() { printf '%s\n' "$@"; }

indexes_are_those_of_the_model() {
    model lines "$seed" 700 >lines
    model answers <lines >wanted
    "$calls" <lines >got
    same 'each line has an answer' 2100 "$(wc -l <got)"
    same 'all are equal' '' "$(diff wanted got | head -n 4 | cut -c 1-400)"
    sed '7s/.$/x/' wanted >other
    same 'one line differs' 1 "$(diff other got | grep -c '^>')"
}

echo "line_index.sh: the seed is $seed"
tests \
    indexes_are_those_of_the_model
