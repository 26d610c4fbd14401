#!/usr/bin/env bash
# The program and the language server by texts, cuts and sessions that dice make, held to the plain readers of fuzz/readers; and the program by
# texts with one fault at each place of a block.
. "$(dirname "$0")/lib.sh"
server=${JX_LSP_PROGRAM:-$root/crates/jx_lsp/out/jx_lsp}
# Another one each day; JX_SEED plays one again.
seed=${JX_SEED:-$(date +%Y%m%d)}
readers=$room/readers.so

# all_right NAME LINE PATTERN LEAST: counts whether a line tells at least so many right answers, and no wrong one.
all_right() {
    if [[ $2 =~ $3 ]] && [ "${BASH_REMATCH[1]}" -ge "$4" ]; then
        passed=$((passed + 1))
        echo "${0##*/}: $2"
    else
        failed=$((failed + 1))
        echo "${0##*/}: FAILED: $1: $2"
    fi
}

the_plain_readers_read_the_standards_examples() {
    all_right 'the plain readers' "$(python3 "$root/fuzz/examples.py" "$readers" 2>&1)" ': ([0-9]+) examples are right, 0 wrong$' 41
}

the_program_answers_as_the_plain_readers_do() {
    all_right 'answers of the program' "$(python3 "$root/fuzz/program.py" "$program" "$readers" "$seed"000 20000 2>&1)" \
        ': ([0-9]+) answers are right, 0 wrong$' 20000
}

a_fault_is_found_at_each_place_of_a_block() {
    all_right 'faults in blocks' "$(JX_PROGRAM=$program python3 "$root/tests/blocks.py" 2>&1)" '^([0-9]+) passed, 0 failed$' 8000
}

# Else a fault of the program might pass too.
a_wrong_answer_is_told() {
    printf '#!/bin/sh\n"%s" "$@" | sed "s/truncated/accepted/"\n' "$program" >wrong
    chmod +x wrong
    same 'a program that takes what is truncated' 'told' "$(python3 "$root/fuzz/program.py" ./wrong "$readers" 1 100 >told || grep -q '^got .*accepted' told && echo told)"
}

the_server_answers_as_the_plain_readers_do() {
    if [ ! -x "$server" ]; then
        echo "${0##*/}: skipped: there is no $server"
        return
    fi
    all_right 'messages of the server' "$(python3 "$root/fuzz/server.py" "$server" "$readers" "$seed"000 1000 2>&1)" ', ([0-9]+) messages answered, 0 wrong$' 10000
}

if ! command -v python3 >/dev/null || ! "$root/fuzz/build" "$room" READERS; then
    same 'python3 is there, and the plain readers are built' '' no
    tests
fi
echo "random.sh: the seed is $seed"
tests the_plain_readers_read_the_standards_examples the_program_answers_as_the_plain_readers_do a_fault_is_found_at_each_place_of_a_block \
    a_wrong_answer_is_told the_server_answers_as_the_plain_readers_do
