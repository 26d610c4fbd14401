#!/usr/bin/env bash
# What the program says of itself, and of words that are no command.
. "$(dirname "$0")/lib.sh"

# help_on COMMAND FLAG: the help on one command, by -h or --help.
help_on() { "$program" $1 "$2" 2>&1; }

the_help_on_each_command_fits_and_is_complete() {
    local command flag text short long
    for command in '' check explain index at get each keys count seq lines texts save split part join whole; do
        for flag in -h --help; do
            text=$(help_on "$command" $flag)
            same "jx $command $flag: no line has more than 79 columns" '' "$(printf '%s\n' "$text" | grep -E '.{80}')"
            has "jx $command $flag: the usage" "Usage: jx${command:+ $command}" "$text"
            has "jx $command $flag: on standard error, status 2" 'status 2
err: ' "$(said '' $command $flag)"
            same "jx $command $flag: nothing on standard output" '' "$(cat out)"
        done
        short=$(help_on "$command" -h | wc -l)
        long=$(help_on "$command" --help | wc -l)
        same "jx $command: -h is shorter than --help" yes "$([ "$short" -lt "$long" ] && echo yes)"
        has "jx $command --help: examples" 'Examples:' "$(help_on "$command" --help)"
        has "jx $command --help: exit statuses" 'Exit status' "$(help_on "$command" --help)"
        if [ -n "$command" ]; then
            same "jx help $command" "$(help_on "$command" --help)" "$("$program" help "$command" 2>&1)"
        fi
    done
}

# Each line of the help as tools/help_texts.py makes it of the sources, by which pages are made before the program is built.
the_help_of_the_sources_is_that_of_the_program() {
    same 'lines that the program does not print' '' "$(PYTHONDONTWRITEBYTECODE=1 PYTHONPATH=$root/tools python3 -c '
import subprocess, sys
import help_texts
_, whole, found = help_texts.commands()
for command in [whole, *found]:
    words = [sys.argv[1], command.name] if command.name else [sys.argv[1]]
    said = [subprocess.run([*words, flag], stderr=subprocess.PIPE, text=True).stderr.split("\n") for flag in ("-h", "--help")]
    print("".join("%s: %s\n" % (command.name, line) for line in help_texts.printed(command) if line not in said[0] + said[1]), end="")
' "$program" 2>&1)"
}

# Those that need no file of the user's.
the_examples_of_the_help_run_as_they_are_printed() {
    same 'an example of jx index' 'accepted
0 object 0..11 - 0 -
1 array 5..10 0 0 1..4
2 number 6..7 1 0 -
3 number 8..9 1 1 -' "$(printf '{"a":[1,2]}' | "$program" index)"
    has 'that example' "printf '{\"a\":[1,2]}' | jx index" "$(help_on index --help)"
}

the_version_is_one_line() {
    local flag
    for flag in --version -V; do
        has "jx $flag: on standard output, status 0" 'status 0
out: jx ' "$(said '' $flag)"
        same "jx $flag: one line" 1 "$(wc -l <out)"
        same "jx $flag: nothing on standard error" '' "$(cat err)"
    done
}

the_nearest_right_word_is_told() {
    has 'a wrong command' "tip: a similar subcommand exists: 'check'" "$(said '' chek)"
    has 'a wrong command' "tip: some similar subcommands exist: 'split', 'explain'" "$(said '' explai)"
    has 'a wrong command' "tip: a similar subcommand exists: 'index'" "$(said '' indx)"
    has 'a wrong command' "tip: a similar subcommand exists: 'seq'" "$(said '' sequ)"
    has 'help on a wrong command' "tip: a similar subcommand exists: 'check'" "$(said '' help chek)"
    has 'help on a wrong command' "error: unrecognized subcommand 'chek'" "$(said '' help chek more)"
    has 'help on a word like no command' "error: unrecognized subcommand 'xyz'" "$(said '' help xyz)"
    has 'help on a command below a command' "error: unrecognized subcommand 'index'" "$(said '' help check index)"
    has 'a wrong option' "tip: a similar argument exists: '--depth'" "$(said '' check --dpth 3)"
    has 'a wrong command' "tip: a similar subcommand exists: 'whole'" "$(said '' hole)"
    has 'a wrong option' "tip: a similar argument exists: '--quiet'" "$(said '' seq --quite)"
    has 'an option before the command' "tip: 'check --depth' exists" "$(said '' --dpth 3 check)"
    has 'a pointer that begins with a hyphen' "tip: to pass '-1' as a value, use '-- -1'" "$(said '' at -1)"
    has 'quiet is for check and seq alone' "error: unexpected argument '-q' found" "$(said '' index -q)"
    has 'quiet is for check and seq alone' "error: unexpected argument '-q' found" "$(said '' at -q /a)"
    has 'quiet is not for get' "error: unexpected argument '-q' found" "$(said '' get -q /a)"
    has 'a wrong command' "'lines'" "$(said '' line)"
    has 'quiet is not for each' "error: unexpected argument '-q' found" "$(said '' each -q)"
    has 'each takes two words' "error: unexpected argument 'b' found" "$(said '' each /a a b)"
    has 'quiet is not for part' "error: unexpected argument '-q' found" "$(said '' part -q)"
    has 'workers are not for join' "error: unexpected argument '--workers' found" "$(said '' join --workers 2)"
    has 'a wrong size of chunks' "error: invalid value for '--chunk <N>': N is no power of two" "$(said '' save --chunk 100)"
    has 'save takes one word' "error: unexpected argument 'b' found" "$(said '' save a b)"
    has 'an index needs the file of the text' '  --file <FILE>' "$(said '' at --index a.jxi /a)"
    has 'the depth stands in the index' "error: the argument '--index <FILE>' cannot be used with '--depth <N>'" "$(said '' at --index a.jxi --file a --depth 3 /a)"
    has 'so does the byte order mark' "cannot be used with '--ignore-bom'" "$(said '' at --index a.jxi --file a --ignore-bom /a)"
    has 'so do unique names' "cannot be used with '--unique-names'" "$(said '' at --index a.jxi --file a --unique-names /a)"
    has 'the depth of get too' "error: the argument '--index <FILE>' cannot be used with '--depth <N>'" "$(said '' get --index a.jxi --file a --depth 3 /a)"
    has 'an index is of one text' "error: the argument '--index <FILE>' cannot be used with '--lines'" "$(said '' get --index a.jxi --file a --lines /a)"
    has 'parts need a number' '  --parts <N>' "$(said '' split --index a.jxi --file a)"
    has 'split reads no standard input' '  --file <FILE>' "$(said '' split --index a.jxi --parts 2)"
    has 'split has no depth' "error: unexpected argument '--depth' found" "$(said '' split --index a.jxi --file a --parts 2 --depth 3)"
    has 'an index is not for check' "error: unexpected argument '--index' found" "$(said '' check --index a.jxi)"
    has 'whole needs the end' 'error: the following required arguments were not provided:' "$(said '' whole)"
    has 'color is for explain alone' "error: unexpected argument '--color' found" "$(said '' check --color never)"
    has 'a format is for check and lines' "error: unexpected argument '--format' found" "$(said '' explain --format json)"
    has 'a list is for check and lines' "error: unexpected argument '-l' found" "$(said '' seq -l)"
    has 'a wrong format' "error: invalid value 'red' for '--format <FORMAT>'" "$(said '' check --format red)"
    has 'names are for what takes several files' "error: unexpected argument '-H' found" "$(said '' explain -H)"
    has 'and for no pointers' "error: unexpected argument '-H' found" "$(said '' get -H /a)"
    has 'a wrong option' "tip: a similar argument exists: '--with-filename'" "$(said '' check --with-file a)"
    has 'a wrong option' "tip: a similar argument exists: '--format'" "$(said '' lines --formt gnu)"
    has 'a wrong option of explain' "tip: a similar argument exists: '--verbose'" "$(said '' explain --verbos a)"
    has 'a wrong color' "error: invalid value 'red' for '--color <WHEN>'" "$(said '' explain --color red)"
}

tests the_help_on_each_command_fits_and_is_complete \
    the_help_of_the_sources_is_that_of_the_program \
    the_examples_of_the_help_run_as_they_are_printed \
    the_version_is_one_line \
    the_nearest_right_word_is_told
