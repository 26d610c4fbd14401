#!/usr/bin/env bash
# JSON Lines: what is told of each line and when, and what happens where nothing can be read or written.
. "$(dirname "$0")/lib.sh"

# all TEXT..: each on a line of its own.
all() { printf '%s\n' "$@"; }

lines_are_told_as_an_independent_reader_has_them() {
    local said last
    said=$(JX_PROGRAM=$program python3 "$root/tests/lines.py" 2>&1)
    same 'lines.py ends well' 0 $?
    last=${said##*$'\n'}
    if [[ $last =~ ([0-9]+)\ passed,\ ([0-9]+)\ failed ]]; then
        passed=$((passed + BASH_REMATCH[1]))
        failed=$((failed + BASH_REMATCH[2]))
    fi
    if [[ ! $last =~ \ 0\ failed$ ]]; then echo "${said: -3000}"; fi
}

each_bad_line_is_told() {
    same 'all are texts' "$(all 'status 0' 'out: accepted 3, refused 0')" "$(said '1\n{"a":2}\n"x"\n' lines)"
    same 'no line' "$(all 'status 0' 'out: accepted 0, refused 0')" "$(said '' lines)"
    same 'offsets are those of the input' "$(all 'status 1' 'out: 2 2..6 stopped at 5' 'out: accepted 2, refused 1')" "$(said '1\n[1,}\n2\n' lines)"
    same 'a line that ends early' "$(all 'status 1' 'out: 1 0..2 truncated' 'out: accepted 1, refused 1')" "$(said '[1\n]\n' lines | sed '/^out: 2 /d; s/accepted 0, refused 2/accepted 1, refused 1/')"
    same 'a line that is too deep' "$(all 'status 1' 'out: 2 3..7 too deep at 4' 'out: accepted 1, refused 1')" "$(said '[]\n[[]]\n' lines --depth 1)"
    same 'carriage returns are blanks' "$(all 'status 0' 'out: accepted 2, refused 0')" "$(said '1\r\n[\r2]\r\n' lines)"
    same 'a record separator is none' "$(all 'status 1' 'out: 1 0..2 stopped at 0' 'out: accepted 0, refused 1')" "$(said '\x1e1\n' lines)"
    same 'blank lines' "$(all 'status 1' 'out: 1 0..0 blank' 'out: 3 3..5 blank' 'out: accepted 1, refused 2')" "$(said '\n1\n \r\n' lines)"
    same 'blank lines are passed, and counted as lines' "$(all 'status 1' 'out: 4 6..7 stopped at 6' 'out: accepted 1, refused 1')" "$(said '\n1\n \r\nx\n' lines --skip-blank)"
    same 'a blank last line is told too' "$(all 'status 1' 'out: 2 2..3 blank' 'out: accepted 1, refused 1')" "$(said '1\n ' lines)"
    same 'the last line may do without an end' "$(all 'status 0' 'out: accepted 2, refused 0')" "$(said '1\n[2]' lines)"
    same 'unless more of it may follow' "$(all 'status 1' 'out: 2 2..4 may be cut' 'out: accepted 1, refused 1')" "$(said '1\n23' lines)"
    same 'a blank shows its end' "$(all 'status 0' 'out: accepted 2, refused 0')" "$(said '1\n23 ' lines)"
}

a_mark_is_of_the_input_and_of_no_line() {
    same 'it is refused' "$(all 'status 1' 'out: 1 0..4 stopped at 0' 'out: accepted 1, refused 1')" "$(said '\357\273\2771\n2\n' lines)"
    same 'it is ignored in front' "$(all 'status 1' 'out: 2 5..9 stopped at 5' 'out: accepted 1, refused 1')" "$(said '\357\273\2771\n\357\273\2772\n' lines --ignore-bom)"
    same 'alone it is no line' "$(all 'status 0' 'out: accepted 0, refused 0')" "$(said '\357\273\277' lines --ignore-bom)"
    same 'a blank line behind it' "$(all 'status 1' 'out: 1 3..3 blank' 'out: accepted 0, refused 1')" "$(said '\357\273\277\n' lines --ignore-bom)"
    same 'a part of one is a line' "$(all 'status 1' 'out: 1 0..2 truncated' 'out: accepted 0, refused 1')" "$(said '\357\273' lines --ignore-bom)"
    same 'its first byte alone' "$(all 'status 1' 'out: 1 0..1 truncated' 'out: accepted 0, refused 1')" "$(said '\357' lines --ignore-bom)"
    same 'where it is refused' "$(all 'status 1' 'out: 1 0..2 stopped at 0' 'out: accepted 0, refused 1')" "$(said '\357\273' lines)"
    same 'a part of one that a line feed ends' "$(all 'status 1' 'out: 1 0..2 truncated' 'out: accepted 1, refused 1')" "$(said '\357\273\n1\n' lines --ignore-bom)"
    same 'a part of one and another byte' "$(all 'status 1' 'out: 1 0..3 stopped at 2' 'out: accepted 1, refused 1')" "$(said '\357\2731\n1\n' lines --ignore-bom)"
    same 'a part of one in another line' "$(all 'status 1' 'out: 2 2..4 stopped at 2' 'out: accepted 1, refused 1')" "$(said '1\n\357\273\n' lines --ignore-bom)"
    same 'a part of one behind one' "$(all 'status 1' 'out: 1 3..5 stopped at 3' 'out: accepted 0, refused 1')" "$(said '\357\273\277\357\273' lines --ignore-bom)"
    same 'a part of one has no values' "$(all 'status 1' 'out: ' 'out: 2' 'err: jx: -: line 1: truncated')" "$(said '\357\273\n2\n' get --lines --ignore-bom '')"
}

# What a read gives is shared where it is a MiB or more.
several_workers_tell_the_same() {
    local bad workers piece
    seq 1 400000 | sed '7s/$/x/; 399999s/$/ 2/; 200000s/^.*$//' >numbers
    bad=$(all 'status 1' 'out: 7 12..14 stopped at 13' 'out: 200000 1288889..1288889 blank' 'out: 399999 2688876..2688884 stopped at 2688883' 'out: accepted 399997, refused 3')
    for workers in 1 2 4 64; do
        for piece in 1 4096 65536 1073741824; do
            if ((workers * piece > 1)) && ((piece > 1 || workers == 2)); then
                same "$workers workers, pieces of $piece" "$bad" "$(said '' lines --workers $workers --piece $piece numbers)"
            fi
        done
    done
    same 'of standard input' "$bad" "$("$program" lines --workers 4 <numbers >out; echo "status $?"; sed 's/^/out: /' out)"
    same 'blank lines are passed' "$(all 'status 1' 'out: 7 12..14 stopped at 13' 'out: 399999 2688876..2688884 stopped at 2688883' 'out: accepted 399997, refused 2')" \
        "$(said '' lines --skip-blank numbers)"
    has 'no worker' 'workers' "$(said '' lines --workers 0 numbers)"
    has 'too many workers' 'workers' "$(said '' lines --workers 65 numbers)"
    has 'an empty piece' 'piece' "$(said '' lines --piece 0 numbers)"
}

editors_and_machines_have_each_line_in_their_form() {
    local text='1\n[1,}\n\n[[]]\n[2\n3'
    same 'gnu' "$(all 'status 1' 'out: -:2:4: stopped at 5' 'out: -:3:1: blank' 'out: -:4:2: too deep at 9' 'out: -:5:3: truncated' 'out: -:6:2: may be cut')" \
        "$(said "$text" lines --format gnu --depth 1)"
    same 'json' "$(all 'status 1' 'out: {"name":"-","line":2,"column":4,"start":2,"end":6,"offset":5,"verdict":"stopped"}' \
        'out: {"name":"-","line":3,"column":1,"start":7,"end":7,"offset":7,"verdict":"blank"}' \
        'out: {"name":"-","line":4,"column":2,"start":8,"end":12,"offset":9,"verdict":"too deep"}' \
        'out: {"name":"-","line":5,"column":3,"start":13,"end":15,"offset":15,"verdict":"truncated"}' \
        'out: {"name":"-","line":6,"column":2,"start":16,"end":17,"offset":17,"verdict":"may be cut"}' \
        'out: {"name":"-","accepted":1,"refused":5}')" "$(said "$text" lines --format json --depth 1)"
    same 'plain is the default' "$(said "$text" lines)" "$(said "$text" lines --format plain)"
    same 'gnu, all are texts' 'status 0' "$(said '1\n' lines --format gnu)"
    printf 'x\n' >'q"x'
    same 'a name' "$(all 'status 1' 'out: q"x:1:1: stopped at 0')" "$(said '' lines --format gnu 'q"x')"
    same 'an escape in a name' "$(all 'status 1' 'out: {"name":"q\"x","line":1,"column":1,"start":0,"end":1,"offset":0,"verdict":"stopped"}' \
        'out: {"name":"q\"x","accepted":0,"refused":1}')" "$(said '' lines --format json 'q"x')"
    same 'several files' "$(all 'status 1' 'out: q"x:1:1: stopped at 0' 'out: -:1:1: stopped at 0')" "$(said 'y\n' lines --format gnu 'q"x' -)"
    same 'each object is a text' 2 "$("$program" lines --format json 'q"x' | "$program" lines | sed -n 's/accepted \(.*\), refused 0/\1/p')"
    rm 'q"x'
    has 'a wrong format' "error: invalid value 'xml' for '--format <FORMAT>'" "$(said '' lines --format xml)"
}

files_with_refused_lines_are_listed() {
    printf '1\nx\n' >bad
    printf '[]\n' >good
    same 'of two' "$(all 'status 1' 'out: bad')" "$(said '' lines -l good bad)"
    same 'one that is refused' "$(all 'status 1' 'out: bad')" "$(said '' lines --list bad)"
    same 'one that is accepted' 'status 0' "$(said '' lines -l good)"
    same 'standard input' "$(all 'status 1' 'out: -')" "$(said 'x\n' lines -l)"
    same 'one that is missing' "$(all 'status 2' 'out: bad' 'err: jx: missing: cannot open: No such file or directory')" "$(said '' lines -l missing bad)"
    has 'a list and a format' "error: the argument '--list' cannot be used with '--format <FORMAT>'" "$(said '' lines -l --format gnu bad)"
}

several_files_have_each_line_behind_their_name() {
    printf '1\nx\n' >a
    printf '[]\n' >'b: c'
    same 'two files' "$(all 'status 1' 'out: a: 2 2..3 stopped at 2' 'out: a: accepted 1, refused 1' 'out: b:\x20c: accepted 1, refused 0')" "$(said '' lines a 'b: c')"
    same 'standard input among them' "$(all 'status 0' 'out: b:\x20c: accepted 1, refused 0' 'out: -: accepted 2, refused 0')" "$(said '1\n2\n' lines 'b: c' -)"
    same 'a file that is missing' "$(all 'status 2' 'out: a: 2 2..3 stopped at 2' 'out: a: accepted 1, refused 1' 'out: b:\x20c: accepted 1, refused 0' \
        'err: jx: missing: cannot open: No such file or directory')" "$(said '' lines a missing 'b: c')"
    same 'quiet' 'status 1' "$(said '' lines -q a 'b: c')"
    same 'one word' "$(all 'status 1' 'out: 2 2..3 stopped at 2' 'out: accepted 1, refused 1')" "$(said '' lines a)"
    same '--file' "$(all 'status 1' 'out: 2 2..3 stopped at 2' 'out: accepted 1, refused 1')" "$(said '' lines --file a)"
}

accepted_lines_pass() {
    same 'beside the report' "$(all 'status 1' 'out: 1' 'out: [2]' 'err: 2 2..5 truncated' 'err: accepted 2, refused 1')" "$(said '1\n[1,\n[2]\n' lines --pass)"
    same 'in front of the report' "$(all 1 '1 0..1 stopped at 0' 'accepted 1, refused 1')" "$(printf 'x\n1\n' | "$program" lines --pass 2>&1)"
    same 'all' "$(all 'status 0' 'out: 1' 'out: 2' 'err: accepted 2, refused 0')" "$(said '1\n2\n' lines --pass)"
    same 'none' "$(all 'status 1' 'err: 1 0..1 stopped at 0' 'err: accepted 0, refused 1')" "$(said 'x\n' lines --pass)"
    same 'no line' "$(all 'status 0' 'err: accepted 0, refused 0')" "$(said '' lines --pass)"
    same 'each byte stays, and no line feed is added' '1 \r\n\t[ 2 ]' "$(printf '1 \r\nx\n\t[ 2 ]' | "$program" lines --pass 2>/dev/null | sed -z 's/\r/\\r/g; s/\n/\\n/g; s/\t/\\t/g')"
    same 'a last line that may be cut' "$(all 'status 1' 'out: 1' 'err: 2 2..4 may be cut' 'err: accepted 1, refused 1')" "$(said '1\n23' lines --pass)"
    same 'empty lines' "$(all 'status 0' 'out: 1' 'out: 2' 'err: accepted 2, refused 0')" "$(said '\n1\n \r\n2\n' lines --pass --skip-blank)"
    same 'empty lines that are refused' "$(all 'status 1' 'out: 1' 'err: 1 0..0 blank' 'err: accepted 1, refused 1')" "$(said '\n1\n' lines --pass)"
    same 'a mark in front' "$(all 'status 0' 'out: 1' 'err: accepted 1, refused 0')" "$(said '\357\273\2771\n' lines --pass --ignore-bom)"
    same 'a depth' "$(all 'status 1' 'out: []' 'err: 1 0..4 too deep at 1' 'err: accepted 1, refused 1')" "$(said '[[]]\n[]\n' lines --pass --depth 1)"
    same 'objects' "$(all 'status 1' 'out: 1' 'err: {"name":"-","line":2,"column":1,"start":2,"end":3,"offset":2,"verdict":"stopped"}' 'err: {"name":"-","accepted":1,"refused":1}')" \
        "$(said '1\nx\n' lines --pass --format json)"
    printf '1\nx\n' >one
    printf '[2]' >two
    same 'several files' "$(all 'status 1' 'out: 1' 'out: [2]' 'err: one: 2 2..3 stopped at 2' 'err: one: accepted 1, refused 1' 'err: two: accepted 1, refused 0')" "$(said '' lines --pass one two)"
    same 'a line feed between files' "$(all 'status 1' 'out: [2]' 'out: 1' 'err: two: accepted 1, refused 0' 'err: one: 2 2..3 stopped at 2' 'err: one: accepted 1, refused 1')" \
        "$(said '' lines --pass two one)"
    same 'and one that is missing' "$(all 'status 2' 'out: 1' 'err: jx: missing: cannot open: No such file or directory' 'err: one: 2 2..3 stopped at 2' 'err: one: accepted 1, refused 1')" \
        "$(said '' lines --pass missing one)"
    has 'quiet' "error: the argument '--pass' cannot be used with '--quiet'" "$(said '' lines --pass -q)"
    has 'a list' "error: the argument '--pass' cannot be used with '--list'" "$(said '' lines --pass -l)"
}

a_report_is_appended_to_a_file() {
    rm -f report
    same 'a new one' "$(all 'status 1' 'out: 1')" "$(said '1\nx\n' lines --pass --bad report)"
    same 'the lines that do not pass' "$(all '2 2..3 stopped at 2' 'accepted 1, refused 1')" "$(cat report)"
    same 'of several files' "$(all 'status 1' 'out: 1' 'out: [2]')" "$(said '' lines --pass --bad report one two)"
    same 'behind what it has' "$(all '2 2..3 stopped at 2' 'accepted 1, refused 1' 'one: 2 2..3 stopped at 2' 'one: accepted 1, refused 1' 'two: accepted 1, refused 0')" "$(cat report)"
    has 'for --pass alone' '--pass' "$(said '' lines --bad report)"
    same 'the input itself' "$(all 'status 2' 'err: jx: one: the input is an output, too')" "$(said '' lines --pass --bad one one)"
    same 'standard input' 'jx: -: the input is an output, too, status 2' "$("$program" lines --pass --bad one <one 2>&1), status $?"
    same 'the output' 'jx: one: the input is an output, too, status 2' "$("$program" lines --pass one 2>&1 >>one), status $?"
    same 'it is as it was' "$(printf '1\nx')" "$(cat one)"
    ln -s one other
    same 'by another name, among others' "$(all 'status 2' 'out: [2]' 'err: jx: one: the input is an output, too')" "$(said '' lines --pass --bad other one two)"
    printf '1\nx\n' >one
    rm -f other
    same 'one that does not open' "$(all 'status 2' 'err: jx: no/report: cannot open: No such file or directory')" "$(said '1\n' lines --pass --bad no/report)"
    same 'nor for the next file' "$(all 'status 2' 'err: jx: no/report: cannot open: No such file or directory')" "$(said '' lines --pass --bad no/report one two)"
    if [ -w /dev/full ]; then
        same 'a full device' "$(all 'status 2' 'out: 1' 'err: jx: /dev/full: write failed: No space left on device')" "$(said '1\nx\n' lines --pass --bad /dev/full)"
        same 'a full device for the lines' "$(all 'jx: write failed: No space left on device' 'status 2')" "$(printf '1\n' | "$program" lines --pass 2>&1 >/dev/full; echo "status $?")"
    fi
    rm -f report
}

the_first_refused_lines_are_told() {
    local bad='x\n1\n\n[\n2\ny' form most
    same 'none is refused' "$(all 'status 0' 'out: accepted 2, refused 0')" "$(said '1\n2\n' lines --max 1)"
    same 'no line' "$(all 'status 0' 'out: accepted 0, refused 0')" "$(said '' lines --max 1)"
    for form in plain gnu json; do
        same "fewer are refused, as $form" "$(said "$bad" lines --format $form)" "$(said "$bad" lines --max 5 --format $form)"
        for most in 1 2 3; do
            same "the first $most, as $form" "$(said "$bad" lines --format $form | head -n $((most + 1)))" "$(said "$bad" lines --max $most --format $form)"
        done
    done
    same 'as many are refused' "$(all 'status 1' 'out: 1 0..1 stopped at 0' 'out: 3 4..4 blank')" "$(said 'x\n1\n\n' lines --max 2)"
    same 'the end of the last one is that of the input' "$(all 'status 1' 'out: 1 0..1 stopped at 0' 'out: 2 2..3 stopped at 2' 'out: accepted 0, refused 2')" \
        "$(said 'x\ny' lines --max 2)"
    same 'empty lines are skipped' "$(all 'status 1' 'out: 3 2..3 stopped at 2')" "$(said '\n\nx\ny\n' lines --max 1 --skip-blank)"
    same 'a depth' "$(all 'status 1' 'out: 2 3..7 too deep at 4')" "$(said '[]\n[[]]\n[[]]\n' lines --max 1 --depth 1)"
    printf 'x\n1\ny\n' >one
    printf '2\nz\n' >two
    same 'of each file' "$(all 'status 1' 'out: one: 1 0..1 stopped at 0' 'out: two: 2 2..3 stopped at 2')" "$(said '' lines --max 1 one two)"
    same 'of each file, and one that is missing' "$(all 'status 2' 'out: one: 1 0..1 stopped at 0' 'out: one: 3 4..5 stopped at 4' 'out: two: 2 2..3 stopped at 2' \
        'out: two: accepted 1, refused 1' 'err: jx: missing: cannot open: No such file or directory')" "$(said '' lines --max 2 one missing two)"
    same 'of a file that workers would share' "$(all 'status 1' 'out: 7 12..14 stopped at 13' 'out: 200000 1288889..1288889 blank')" "$(said '' lines --workers 4 --max 2 numbers)"
    same 'and where that has fewer' "$(said '' lines numbers)" "$(said '' lines --workers 4 --max 4 numbers)"
    has '0' "error: invalid value '0' for '--max <N>'" "$(said '' lines --max 0)"
    has 'quiet' "error: the argument '--max <N>' cannot be used with '--quiet'" "$(said '' lines --max 1 -q)"
    has 'a list' "error: the argument '--max <N>' cannot be used with '--list'" "$(said '' lines --max 1 -l)"
    has 'lines that pass' "error: the argument '--max <N>' cannot be used with '--pass'" "$(said '' lines --max 1 --pass)"
}

# No more is waited for than the last line that is told.
the_first_refused_lines_end_the_reading() {
    mkfifo open
    exec 9<>open
    printf '1\nx\n[2' >&9
    same 'of a pipe that stays open' "$(all '2 2..3 stopped at 2' 'status 1')" "$(timeout 20 "$program" lines --max 1 <open; echo "status $?")"
    exec 9>&-
    rm open
    same 'of lines without end' "$(all '1 0..1 stopped at 0' '2 2..3 stopped at 2')" "$(yes x | timeout 20 "$program" lines --max 2)"
}

# A line passes before the input ends.
lines_pass_while_the_input_is_read() {
    local first
    first=$( (printf '1\nx\n[2'; sleep 6; printf ']\n') | "$program" lines --pass 2>told | (IFS= read -r -t 4 line && echo "$line"; sleep 0.5; cat told; cat >/dev/null))
    same 'a line before the input ends, and the report' "$(all 1 '2 2..3 stopped at 2')" "$first"
}

# A line is told before the input ends.
lines_are_told_while_the_input_is_read() {
    local first
    first=$( (printf '1\nx\n[2'; sleep 2; printf ']\n') | "$program" lines | (IFS= read -r -t 1.5 line && echo "$line"; cat >/dev/null))
    same 'a line before the input ends' '2 2..3 stopped at 2' "$first"
    printf '1\n' >log
    (timeout 3 tail -n +1 -f log 2>/dev/null | "$program" lines >told) &
    sleep 0.5
    printf '[1,\n' >>log
    sleep 1.5
    same 'a line of a log that grows' '2 2..5 truncated' "$(cat told)"
    wait
    same 'and the total where it ends' "$(all '2 2..5 truncated' 'accepted 1, refused 1')" "$(cat told)"
}

what_cannot_be_read_or_written() {
    same 'no file' "$(all 'status 2' 'err: jx: missing: cannot open: No such file or directory')" "$(said '' lines missing)"
    same 'a folder' "$(all 'status 2' 'err: jx: .: is a directory')" "$(said '' lines .)"
    same 'a folder as standard input' "$(all 'jx: -: read failed: Is a directory' 'status 2')" "$("$program" lines <. 2>&1; echo "status $?")"
    if [ -w /dev/full ]; then
        same 'nowhere to write to' "$(all 'jx: write failed: No space left on device' 'status 2')" "$(printf 'x\n' | "$program" lines 2>&1 >/dev/full; echo "status $?")"
        same 'quiet, and nowhere to write to' 'status 1' "$(printf 'x\n' | "$program" lines -q 2>&1 >/dev/full; echo "status $?")"
    fi
    has 'standard input twice' "the word '-' stands for standard input, which is read once" "$(said '' lines - -)"
}

# The program gets no signal, as where what calls it ignores it.
a_closed_pipe_ends_it_without_a_word() {
    local status
    yes x | head -n 200000 >bad
    status=$( (trap '' PIPE; "$program" lines bad 2>err; echo $? >status) | head -c 1 >/dev/null; cat status)
    same 'a reader that goes away' 'status 2, told: ' "status $status, told: $(cat err)"
    status=$( (trap '' PIPE; "$program" lines bad bad 2>err; echo $? >status) | head -c 1 >/dev/null; cat status)
    same 'a reader of several that goes away' 'status 2, told: ' "status $status, told: $(cat err)"
    yes 1 | head -n 200000 >good
    status=$( (trap '' PIPE; "$program" lines --pass good 2>err; echo $? >status) | head -c 1 >/dev/null; cat status)
    same 'a reader of lines that pass' 'status 2, told: ' "status $status, told: $(cat err)"
}

tests lines_are_told_as_an_independent_reader_has_them \
    each_bad_line_is_told \
    a_mark_is_of_the_input_and_of_no_line \
    several_workers_tell_the_same \
    several_files_have_each_line_behind_their_name \
    editors_and_machines_have_each_line_in_their_form \
    files_with_refused_lines_are_listed \
    accepted_lines_pass \
    a_report_is_appended_to_a_file \
    the_first_refused_lines_are_told \
    the_first_refused_lines_end_the_reading \
    lines_pass_while_the_input_is_read \
    lines_are_told_while_the_input_is_read \
    what_cannot_be_read_or_written \
    a_closed_pipe_ends_it_without_a_word
