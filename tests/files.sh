#!/usr/bin/env bash
# Files as words: one is answered as by --file, and several one after another, each line behind the word that it is of.
. "$(dirname "$0")/lib.sh"

# lines LINE..: each on a line of its own.
lines() { printf '%s\n' "$@"; }

# told WORD..: runs the program without input, and prints its status and both outputs.
told() { said '' "$@"; }

make_files() {
    printf '[1]' >good.json
    printf '[1,}' >bad.json
    printf '[1' >short.json
    printf '\036[1]\n\0362' >log
    printf '\036{}\n' >whole.log
    mkdir folder
}

one_file_is_answered_as_by_its_option() {
    local command file
    for command in check index seq; do
        for file in good.json bad.json short.json log whole.log missing folder ''; do
            same "$command $file" "$(told $command --file "$file")" "$(told $command "$file")"
        done
        same "$command: a hyphen is standard input" "$(said '\036[1]\n' $command)" "$(said '\036[1]\n' $command -)"
        same "$command: so is no word" "$(said '[1' $command -)" "$(said '[1' $command)"
    done
    printf '[]' >-
    same 'the option names a file that is called a hyphen' "$(lines 'status 0' 'out: accepted')" "$(said '[' check --file -)"
    rm -- -
    has 'index takes one' "error: unexpected argument 'b' found" "$(told index a b)"
    has 'a word and the option' "error: the argument '[FILE]...' cannot be used with '--file <FILE>'" "$(told check a --file b)"
    has 'pointers are no files' 'no slash' "$(said '[1]' at good.json)"
}

several_files_are_checked_in_their_order() {
    same 'three files' "$(lines 'status 1' 'out: good.json: accepted' 'out: bad.json: stopped at 3' 'out: short.json: truncated')" \
        "$(told check good.json bad.json short.json)"
    same 'another order' "$(lines 'status 1' 'out: bad.json: stopped at 3' 'out: good.json: accepted')" "$(told check bad.json good.json)"
    same 'the same file twice' "$(lines 'status 0' 'out: good.json: accepted' 'out: good.json: accepted')" "$(told check good.json good.json)"
    same 'standard input between files' "$(lines 'status 1' 'out: good.json: accepted' 'out: -: truncated' 'out: good.json: accepted')" \
        "$(said '{' check good.json - good.json)"
    same 'options between files' "$(lines 'status 1' 'out: good.json: too deep at 0' 'out: bad.json: too deep at 0')" "$(told check good.json --depth 0 bad.json)"
    same 'quiet' 'status 1' "$(told check -q good.json bad.json)"
    same 'quiet, all accepted' 'status 0' "$(told check --quiet good.json good.json)"
    printf '{"a":1,"a":2}' >names.json
    same 'names that have to be unique' "$(lines 'status 1' 'out: good.json: accepted' 'out: names.json: repeated name at 7')" \
        "$(told check --unique-names good.json names.json)"
}

one_file_has_its_name_where_that_is_asked_for() {
    local flag
    for flag in -H --with-filename; do
        same "check $flag" "$(lines 'status 1' 'out: bad.json: stopped at 3')" "$(told check $flag bad.json)"
        same "seq $flag" "$(lines 'status 0' 'out: whole.log: 1..4 accepted')" "$(told seq $flag whole.log)"
        same "seq --live $flag" "$(lines 'status 0' 'out: whole.log: 1..4 accepted')" "$(told seq --live $flag whole.log)"
        same "lines $flag" "$(lines 'status 1' 'out: short.json: 1 0..2 truncated' 'out: short.json: accepted 0, refused 1')" "$(told lines $flag short.json)"
    done
    same 'standard input' "$(lines 'status 1' 'out: -: truncated')" "$(said '[' check -H)"
    same 'standard input as a word' "$(lines 'status 1' 'out: -: truncated')" "$(said '[' check -H -)"
    same 'by the option' "$(lines 'status 0' 'out: good.json: accepted')" "$(told check -H --file good.json)"
    printf '[]' >-
    same 'the option names a file that is called a hyphen' "$(lines 'status 0' 'out: ./-: accepted')" "$(said '[' check -H --file -)"
    rm -- -
    same 'several files' "$(told check good.json bad.json)" "$(told check -H good.json bad.json)"
    same 'quiet' 'status 1' "$(told check -qH bad.json)"
    same 'one that is missing' "$(told check missing)" "$(told check -H missing)"
}

the_option_for_a_file_is_a_letter_too() {
    local command
    for command in check index seq lines explain; do
        same "$command -f" "$(told $command --file bad.json)" "$(told $command -f bad.json)"
    done
    same 'at -f' "$(lines 'status 0' 'out: found number 1..2')" "$(told at /0 -f good.json)"
    same 'get -f' "$(lines 'status 0' 'out: 1')" "$(told get -f good.json /0)"
    same 'each -f' "$(lines 'status 0' 'out: 1')" "$(told each -f good.json)"
}

several_sequences_have_each_element_behind_their_name() {
    same 'two sequences' "$(lines 'status 1' 'out: log: 1..5 accepted' 'out: log: 6..7 may be cut' 'out: whole.log: 1..4 accepted')" "$(told seq log whole.log)"
    printf '' >empty
    same 'one without elements' "$(lines 'status 0' 'out: whole.log: 1..4 accepted')" "$(told seq empty whole.log)"
}

what_is_not_to_be_had_is_told_and_the_rest_goes_on() {
    same 'a file that is missing, between two' "$(lines 'status 2' 'out: good.json: accepted' 'out: bad.json: stopped at 3' 'err: jx: missing: cannot open: No such file or directory')" \
        "$(told check good.json missing bad.json)"
    same 'a folder' "$(lines 'status 2' 'out: good.json: accepted' 'err: jx: folder: is a directory')" "$(told check folder good.json)"
    same 'an empty word' "$(lines 'status 2' 'out: good.json: accepted' 'err: jx: : cannot open: No such file or directory')" "$(told check '' good.json)"
    same 'a fault is the greatest status, wherever it stands' "$(lines 'status 2' 'out: bad.json: stopped at 3' 'err: jx: missing: cannot open: No such file or directory')" \
        "$(told check missing bad.json)"
    same 'quiet tells of faults' "$(lines 'status 2' 'err: jx: missing: cannot open: No such file or directory')" "$(told check -q missing bad.json)"
    if [ -r /proc/self/mem ]; then
        same 'a read that fails, between two' "$(lines 'status 2' 'out: good.json: accepted' 'out: bad.json: stopped at 3' 'err: jx: /proc/self/mem: read failed: Input/output error')" \
            "$(told check good.json /proc/self/mem bad.json)"
    fi
    if [ -w /dev/full ]; then
        same 'nowhere to write to' "$(lines 'jx: write failed: No space left on device' 'status 2')" "$("$program" check good.json bad.json 2>&1 >/dev/full; echo "status $?")"
        same 'nowhere to tell to' "$(lines 'good.json: accepted' 'status 2')" "$("$program" check missing good.json 2>/dev/full; echo "status $?")"
    fi
}

standard_input_is_named_once() {
    same 'a hyphen twice' "$(lines 'status 2' "err: error: the word '-' stands for standard input, which is read once")" "$(said '[1]' check - good.json -)"
    same 'of a sequence' "$(lines 'status 2' "err: error: the word '-' stands for standard input, which is read once")" "$(said '[1]' seq - -)"
}

words_are_taken_as_they_stand() {
    printf '[1]' >'-x y'
    printf '[2' >'a, b'
    same 'behind two hyphens' "$(lines 'status 1' 'out: -x y: accepted' 'out: a, b: truncated')" "$(told check -- '-x y' 'a, b')"
    same 'bytes that are no text' 'status 2' "$(told check $'\377' good.json | head -n 1)"
}

ten_thousand_files_are_checked() {
    local i words=() wanted=()
    for ((i = 0; i < 10000; i++)); do words+=(good.json); done
    words[9999]=bad.json
    "$program" check --workers 1 "${words[@]}" >many
    same 'ten thousand files: status' 1 $?
    same 'ten thousand files: lines' 10000 "$(wc -l <many)"
    same 'ten thousand files: those that are accepted' 9999 "$(grep -c '^good.json: accepted$' many)"
    same 'ten thousand files: the last' 'bad.json: stopped at 3' "$(tail -n 1 many)"
}

# What is told of a file can be read back: no name is taken for more than a word, and two names are never told alike.
names_forge_no_line() {
    local name
    for name in $'x: accepted\ny' $'tab\t' $'bell\a' 'a: b' 'back\slash' '\x41' $'\033[31m' $'\177' $'\u0085' $'\u2028' $'\u202e' 'é' 'e\u0301' '漢字' 'a:b' 'a :b' ' ' '"'; do
        printf '%b' '[' >"./$name"
        printf '%s\0' "$name"
    done >names
    python3 - "$program" >wrong <<'PYTHON'
import re, subprocess, sys

for name in open("names", "rb").read().split(b"\0")[:-1]:
    for words, told in ((["check"], b"truncated"), (["explain"], None)):
        done = subprocess.run([sys.argv[1], *words, name] + ([name] if told else []), capture_output=True)
        lines = done.stdout.split(b"\n")
        if told and (len(lines) != 3 or lines[0] != lines[1] or lines[2]):
            print(words, name, done)
        shown = lines[0].partition(b": ")[0]
        if told and not lines[0].endswith(b": " + told):
            print(words, name, done)
        if not told:
            shown = shown.removesuffix(b":1:2")
        if re.sub(rb"\\x([0-9A-F]{2})", lambda found: bytes([int(found[1], 16)]), shown) != name:
            print("not read back", words, name, done)
        if any(byte < 32 or byte == 127 for byte in shown):
            print("a control character", words, name, done)
    done = subprocess.run([sys.argv[1], "check", name + b".missing"], capture_output=True)
    if done.stderr != b"jx: " + shown.replace(b"\\x20.", b" .") + b".missing: cannot open: No such file or directory\n":
        print("missing", name, done)
PYTHON
    same 'names are told as they can be read back' '' "$(cat wrong)"
    same 'one of them, in full' "$(lines 'status 2' 'err: jx: x:\x20accepted\x0A: cannot open: No such file or directory')" "$(told check $'x: accepted\n')"
}

# A pipe that ends early, as a file does that shrinks while it is read.
an_input_that_ends_early_is_truncated() {
    mkfifo pipe
    printf '[1,2' >pipe &
    same 'a pipe that ends early' "$(lines 'status 1' 'out: good.json: accepted' 'out: pipe: truncated')" "$(told check good.json pipe)"
    wait
}

make_files
tests one_file_is_answered_as_by_its_option \
    several_files_are_checked_in_their_order \
    one_file_has_its_name_where_that_is_asked_for \
    the_option_for_a_file_is_a_letter_too \
    several_sequences_have_each_element_behind_their_name \
    what_is_not_to_be_had_is_told_and_the_rest_goes_on \
    standard_input_is_named_once \
    words_are_taken_as_they_stand \
    names_forge_no_line \
    ten_thousand_files_are_checked \
    an_input_that_ends_early_is_truncated
