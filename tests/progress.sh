#!/usr/bin/env bash
# How far an input is read, told on standard error where that is asked for, and that it changes no output.
. "$(dirname "$0")/lib.sh"

# Lines that a carriage return begins, and each ends with blanks over the last one.
of_a_size='^\r[0-9]+ MB, [0-9]+ %, [0-9]+ MB/s *$'
of_a_pipe='^\r[0-9]+ MB, [0-9]+ MB/s *$'

# told: what the last run told on standard error, each line of it behind its carriage return.
told() { tr -d '\n' <err | sed 's/\r/\n\r/g' | sed 1d; }

it_is_told_where_it_is_asked_for() {
    local count
    yes 1 | head -n 60000000 | tr '\n' , | sed 's/^/[/; s/,$/]/' >long
    # One worker reads as it judges, so that this takes longer than a line waits.
    "$program" check --workers 1 --progress always long >out 2>err
    same 'the answer' 'accepted, status 0' "$(cat out), status $?"
    same 'each line' '' "$(told | grep -avP "$of_a_size")"
    has 'the last line' ', 100 %, ' "$(told | tail -n 1)"
    same 'the line is ended' '' "$(tail -c 1 err | tr -d '\n')"
    count=$(told | wc -l)
    same 'a line at least' yes "$([ "$count" -ge 1 ] && echo yes)"
    cat long | "$program" check --workers 1 --progress always >out 2>err
    same 'the answer on a pipe' accepted "$(cat out)"
    same 'each line of a pipe' '' "$(told | grep -avP "$of_a_pipe")"
    "$program" each --progress always '' long 2>err | cksum >elements
    same 'the elements are the same' "$("$program" each '' long | cksum)" "$(cat elements)"
    same 'each line beside elements' '' "$(told | grep -avP "$of_a_size")"
}

no_more_than_ten_a_second() {
    (for _ in 1 2 3 4 5 6 7 8 9 10; do printf '%s' '[[[[[[[[[['; sleep 0.05; done) | "$program" check --progress always >out 2>err
    same 'reads that come often' yes "$([ "$(told | wc -l)" -le 8 ] && echo yes)"
    same 'the answer' truncated "$(cat out)"
}

else_nothing_is_told() {
    for when in never auto; do
        "$program" check --progress $when long >out 2>err
        same "nothing by $when, where standard error is no terminal" '' "$(cat err)"
    done
    "$program" check long >out 2>err
    same 'nothing without the option' '' "$(cat err)"
    same 'a short input has no line' 'status 0
out: accepted' "$(said '[1]' check --progress always)"
    same 'nothing beside objects' '' "$("$program" check --format json --progress always long 2>&1 >/dev/null)"
}

several_inputs_are_told_one_by_one() {
    "$program" check --workers 1 --progress always long long >out 2>err
    same 'the answers' "$(printf 'long: accepted\nlong: accepted')" "$(cat out)"
    same 'each line is ended' yes "$([ "$(tr -dc '\n' <err | wc -c)" -ge 1 ] && echo yes)"
    "$program" check -l --progress always long >out 2>err
    same 'a list' '' "$(cat out)"
}

what_cannot_be_told() {
    has 'a wrong word' "invalid value 'soon' for '--progress <WHEN>'" "$(said '' check --progress soon)"
    has 'progress is for check, each and save alone' "error: unexpected argument '--progress' found" "$(said '' seq --progress always)"
    if [ -w /dev/full ]; then
        same 'nowhere to tell' accepted "$("$program" check --progress always long 2>/dev/full)"
        same 'a fault ends the line' 'jx: write failed: No space left on device' "$("$program" each --progress always '' long 2>&1 >/dev/full | tail -n 1)"
    fi
}

tests it_is_told_where_it_is_asked_for \
    no_more_than_ten_a_second \
    else_nothing_is_told \
    several_inputs_are_told_one_by_one \
    what_cannot_be_told
