#!/usr/bin/env bash
# The exit statuses, with all that is written to both streams.
. "$(dirname "$0")/lib.sh"

bom='\357\273\277'

# lines LINE..: each on a line of its own.
lines() { printf '%s\n' "$@"; }

a_whole_answer_ends_with_status_0() {
    same 'a text' "$(lines 'status 0' 'out: accepted')" "$(said null check)"
    same 'a text in depth' "$(lines 'status 0' 'out: accepted')" "$(said '[1,{"a":[]}]' check --depth 3)"
    same 'rows' "$(lines 'status 0' 'out: accepted' 'out: 0 array 0..4 - 0 -' 'out: 1 number 1..3 0 0 -')" "$(said '[10]' index)"
    same 'pointers' "$(lines 'status 0' 'out: found array 0..4' 'out: found number 1..3')" "$(said '[10]' at '' /0)"
    same 'elements' "$(lines 'status 0' 'out: 1..4 accepted')" "$(said '\036"a"' seq)"
    same 'no element' 'status 0' "$(said '' seq)"
    same 'lines' "$(lines 'status 0' 'out: accepted 2, refused 0')" "$(said '[1]\n2\n' lines)"
}

what_is_refused_or_not_found_ends_with_status_1() {
    same 'no text' "$(lines 'status 1' 'out: stopped at 3')" "$(said nulx check)"
    same 'too short a text' "$(lines 'status 1' 'out: truncated')" "$(said '' check)"
    same 'too deep a text' "$(lines 'status 1' 'out: too deep at 8')" "$(said '[1,{"a":[]}]' check --depth 2)"
    same 'rows of no text' "$(lines 'status 1' 'out: stopped at 7')" "$(said '{"a":1,2]' index)"
    same 'pointers that are not all found' "$(lines 'status 1' 'out: found number 4..6' 'out: past end at token 0')" "$(said '[10,20]' at /1 /2)"
    same 'lines that are not all accepted' "$(lines 'status 1' 'out: 2 2..4 truncated' 'out: accepted 1, refused 1')" "$(said '1\n[2\n' lines)"
    same 'elements that are not all accepted' "$(lines 'status 1' 'out: 1..6 accepted' 'out: 7..11 may be cut' 'out: 13..16 truncated')" "$(said '\036true\n\036true\036\036[1\n' seq)"
}

quiet_has_the_same_status_and_no_output() {
    local quiet
    for quiet in -q --quiet; do
        same "$quiet: a text" 'status 0' "$(said null check $quiet)"
        same "$quiet: no text" 'status 1' "$(said nulx check $quiet)"
        same "$quiet: elements" 'status 0' "$(said '\036[]\n' seq $quiet)"
        same "$quiet: lines" 'status 0' "$(said '[]\n' lines $quiet)"
        same "$quiet: lines that are not all accepted" 'status 1' "$(said '[]\n1' lines $quiet)"
        same "$quiet: elements that are not all accepted" 'status 1' "$(said '\036[]\n\0361' seq $quiet)"
    done
    same 'quiet, and a fault' "$(lines 'status 2' 'err: jx: missing.json: cannot open: No such file or directory')" "$(said '' check -q --file missing.json)"
    if [ -w /dev/full ]; then
        same 'quiet, and nowhere to write to' 'status 1' "$(printf nulx | "$program" check -q >/dev/full; echo "status $?")"
    fi
}

a_fault_ends_with_status_2() {
    same 'no file' "$(lines 'status 2' 'err: jx: missing.json: cannot open: No such file or directory')" "$(said '' check --file missing.json)"
    mkdir folder
    same 'a folder' "$(lines 'status 2' 'err: jx: folder: is a directory')" "$(said '' check --file folder)"
    same 'a folder as standard input' "$(lines 'jx: -: read failed: Is a directory' 'status 2')" "$("$program" check <folder 2>&1; echo "status $?")"
    same 'a file below a file' "$(lines 'status 2' 'err: jx: folder/../file/x: cannot open: Not a directory')" "$(: >file; said '' check folder/../file/x)"
    if [ "$(id -u)" != 0 ]; then
        same 'a file that may not be read' "$(lines 'status 2' 'err: jx: shut: cannot open: Permission denied')" "$(: >shut; chmod 0 shut; said '' check shut)"
    fi
    if [ -w /dev/full ]; then
        same 'nowhere to write to' "$(lines 'jx: write failed: No space left on device' 'status 2')" "$(printf null | "$program" check 2>&1 >/dev/full; echo "status $?")"
    fi
    has 'no number' "$(lines 'status 2' "err: error: invalid value 'x' for '--depth <N>'")" "$(said '' check --depth x)"
    has 'no command' "$(lines 'status 2' "err: error: 'jx' requires a subcommand")" "$(said '')"
    has 'an option that is not UTF-8' "$(lines 'status 2' 'err: error: invalid UTF-8')" "$(said '' check --depth $'\377')"
    has 'a number of workers that is not UTF-8' "$(lines 'status 2' 'err: error: invalid UTF-8')" "$(said '' check --workers $'\377')"
}

# WORDS | what is told of the file, behind its name.
messages() {
    cat <<'LINES'
get /a --file cut | truncated
get '' --file cut --unique-names | truncated
get /a /b --file text | /b: no such member at token 0
get /b --file text | /b: no such member at token 0
get /c --file text --index index | /c: no such member at token 0
get --lines /b --file text | line 1: /b: no such member at token 0
get --lines /b --file cut | line 1: truncated
each /a --file text | /a: not a container at token 1
each --names /c --file text | /c: no such member at token 0
each --file cut | truncated
keys /a --file text | /a: not an object at token 1
keys --file cut | truncated
count /a --file text | /a: not a container at token 1
count --file cut | truncated
save cut | truncated
save --depth 0 text | too deep at 0
split --parts 2 /a --index index --file text | /a: not a container at token 1
whole --to 1 --file text | run 0: not a run
join --file empty | no runs
LINES
}

a_message_names_its_input_and_its_pointer() {
    local words told
    printf '{"a":1}' >text
    printf '{"a":[' >cut
    : >empty
    "$program" save text >index
    while IFS='|' read -r words told; do
        told=${told# }
        case $words in
        *cut*) told="cut: $told" ;;
        *empty*) told="empty: $told" ;;
        *) told="text: $told" ;;
        esac
        same "jx $words" "jx: $told" "$(eval "\"\$program\" $words" 2>&1 >/dev/null)"
    done < <(messages)
    same 'standard input' "$(lines 'status 1' 'out: ' 'out: ' 'err: jx: -: /b: no such member at token 0' 'err: jx: -: /c/d: no such member at token 0')" "$(said '{"a":1}' get /b /c/d)"
    printf '[1' >'a: b'
    same 'a name that has a colon and a space' "$(lines 'status 1' 'err: jx: a:\x20b: truncated')" "$(said '' save 'a: b')"
    printf '{}' >$'a\nb'
    same 'a name of two lines' "$(lines 'status 1' 'out: ' 'err: jx: a\x0Ab: /x: no such member at token 0')" "$(said '' get --file $'a\nb' /x)"
    same 'a word that is no pointer' "$(lines 'status 2' 'err: jx: x: no slash: the first word is a pointer, and FILE the second')" "$(said '{}' each x)"
}

# The runtime opens files by text. Such a file is a fault of its own, in each command.
a_name_that_is_not_utf_8_is_the_fault_of_its_file() {
    local name=$'a\377b' fault='err: jx: a\xFFb: cannot open: Invalid argument' words
    printf 'null' >read
    for words in check 'check -l' 'check --format gnu' 'check --format json' explain index seq 'seq --live' lines 'lines --max 1' 'lines --pass' texts save 'part --file' 'join --file' 'whole --to 1 --file' 'at /0 --file' 'get /0 --file' 'get --lines /0 --file' \
        'get -r /0 --pointers' 'at /0 --pointers' 'at /0 --file read --index' 'get /0 --file read --index' 'split --parts 1 --file read --index' 'lines --pass read --bad'; do
        # shellcheck disable=SC2086
        same "jx $words" "$(lines 'status 2' "$fault")" "$(said '[1]' $words "$name")"
    done
    same 'jx each' "$(lines 'status 2' "$fault")" "$(said '' each '' "$name")"
    same 'its bytes are shown' "$(lines 'status 2' 'err: jx: é\xC3\xE2\x82.json: cannot open: Invalid argument')" "$(said '' check $'\303\251\303\342\202.json')"
    same 'the others are read' "$(lines 'status 2' 'out: read: accepted' 'out: read: accepted' "$fault")" "$(said '' check read "$name" read)"
    same 'explained' "$(lines 'status 2' 'out: read: accepted' 'out: read: accepted' "$fault")" "$(said '' explain read "$name" read)"
    same 'line by line' "$(lines 'status 2' 'out: read: 1 0..4 may be cut' 'out: read: accepted 0, refused 1' "$fault")" "$(said '' lines "$name" read)"
    for words in 'at' 'get' 'get --lines' 'each' 'keys' 'count' 'split --parts 1 --file read --index read'; do
        # shellcheck disable=SC2086
        has "a pointer of jx $words" "$(lines 'status 2' 'err: error: invalid UTF-8')" "$(said '1' $words $'/\377')"
    done
    has 'a word for no value' "$(lines 'status 2' 'err: error: invalid UTF-8')" "$(said '1' get --lines --format tsv --null $'\377' /a)"
}

a_byte_order_mark_is_refused_or_ignored() {
    local piece
    same 'a mark is refused' "$(lines 'status 1' 'out: stopped at 0')" "$(said "${bom}1" check)"
    for piece in 1 2 3 4 65536; do
        same "a mark is ignored, by pieces of $piece" "$(lines 'status 0' 'out: accepted')" "$(said "${bom}1" check --ignore-bom --piece $piece)"
        same "its bytes are counted, by pieces of $piece" "$(lines 'status 0' 'out: accepted' 'out: 0 number 3..4 - 0 -')" "$(said "${bom}1" index --ignore-bom --piece $piece)"
        same "pointers behind a mark, by pieces of $piece" "$(lines 'status 0' 'out: found number 4..5')" "$(said "${bom}[1]" at --ignore-bom --piece $piece /0)"
        same "a mark before a sequence, by pieces of $piece" "$(lines 'status 0' 'out: 4..6 accepted')" "$(said "${bom}\00361\n" seq --ignore-bom --piece $piece)"
        same "a part of a mark, by pieces of $piece" "$(lines 'status 1' 'out: truncated')" "$(said '\357\273' check --ignore-bom --piece $piece)"
        same "a part of a mark and another byte, by pieces of $piece" "$(lines 'status 1' 'out: stopped at 2')" "$(said '\357\2731' check --ignore-bom --piece $piece)"
        same "a second mark, by pieces of $piece" "$(lines 'status 1' 'out: stopped at 3')" "$(said "${bom}${bom}1" check --ignore-bom --piece $piece)"
        same "a mark behind a blank, by pieces of $piece" "$(lines 'status 1' 'out: stopped at 1')" "$(said " ${bom}1" check --ignore-bom --piece $piece)"
    done
    same 'a mark before a sequence, where it is not ignored' "$(lines 'status 1' 'out: 0..3 unmarked' 'out: 4..6 accepted')" "$(said "${bom}\00361\n" seq)"
    same 'a mark in an element' "$(lines 'status 1' 'out: 1..6 stopped at 1')" "$(said "\036${bom}1\n" seq --ignore-bom)"
    same 'a mark with more before the first separator' "$(lines 'status 1' 'out: 0..4 unmarked' 'out: 5..7 accepted')" "$(said "${bom}1\00362\n" seq --ignore-bom)"
}

names_may_have_to_be_unique() {
    local piece
    same 'a name may be repeated' "$(lines 'status 0' 'out: accepted')" "$(said '{"a":1,"\\u0061":2}' check)"
    for piece in 1 2 3 4 65536; do
        same "a repeated name, by pieces of $piece" "$(lines 'status 1' 'out: repeated name at 7')" "$(said '{"a":1,"\\u0061":2}' check --unique-names --piece $piece)"
        same "one behind a mark, by pieces of $piece" "$(lines 'status 1' 'out: repeated name at 10')" "$(said "${bom}"'{"a":1,"a":2}' index --unique-names --ignore-bom --piece $piece)"
        same "pointers into unique names, by pieces of $piece" "$(lines 'status 0' 'out: found number 11..12')" "$(said '{"a":1,"b":2}' at --unique-names --piece $piece /b)"
        same "pointers into repeated names, by pieces of $piece" "$(lines 'status 1' 'out: repeated name at 7')" "$(said '{"a":1,"a":2}' at --unique-names --piece $piece /b)"
        same "an element that repeats a name, by pieces of $piece" "$(lines 'status 1' 'out: 1..15 repeated name at 8' 'out: 16..18 accepted')" "$(said '\036{"a":1,"a":2}\n\00361\n' seq --unique-names --piece $piece)"
        same "what is no text, by pieces of $piece" "$(lines 'status 1' 'out: stopped at 12')" "$(said '{"a":1,"a":2]' check --unique-names --piece $piece)"
    done
}

each_line_of_a_file_is_a_pointer() {
    printf '/1\n\n/0\n/0' >list
    same 'pointers: a line each, behind those among the words' \
        "$(lines 'status 1' 'out: past end at token 0' 'out: found number 4..6' 'out: found array 0..7' 'out: found number 1..3' 'out: found number 1..3')" \
        "$(said '[10,20]' at /2 --pointers list)"
    printf '/1\r\n\r\n/0\r\n' >list
    same 'pointers: lines that end with carriage returns and line feeds' "$(lines 'status 0' 'out: found number 4..6' 'out: found array 0..7' 'out: found number 1..3')" \
        "$(said '[10,20]' at --pointers list)"
    same 'pointers: the same by get' "$(lines 'status 0' 'out: 20' 'out: [10,20]' 'out: 10')" "$(said '[10,20]' get --pointers list)"
    printf '/a\r\r\n/a\r' >list
    same 'pointers: other carriage returns stay' "$(lines 'status 0' 'out: found number 7..8' 'out: found number 7..8')" "$(said '{"a\\r":1}' at --pointers list)"
    printf '' >none
    same 'pointers: no line' 'status 0' "$(said '[10]' at --pointers none)"
    same 'pointers: no line, and one among the words' "$(lines 'status 0' 'out: found number 1..3')" "$(said '[10]' at /0 --pointers none)"
    printf '/0' >one
    same 'pointers: one line without an end' "$(lines 'status 0' 'out: found number 1..3')" "$(said '[10]' at --pointers one)"
    printf '\n' >empty
    same 'pointers: an empty line' "$(lines 'status 0' 'out: found array 0..4')" "$(said '[10]' at --pointers empty)"
}

many_pointers_are_answered_in_their_places() {
    seq 0 99999 | sed 's|.*|"k&":{"n":&}|' | paste -sd, | sed 's/.*/{&}/' >many.json
    seq 0 99999 | sed 's|.*|/k&/n|' >many
    "$program" at --file many.json --pointers many >found
    same 'pointers: 100,000 lines' 0 $?
    same 'pointers: 100,000 lines, each answered in its place' "$(grep -obE '"n":[0-9]+' many.json | awk -F: '{ print "found number " $1 + 4 ".." $1 + 4 + length($3) }' | cksum)" "$(cksum <found)"
    "$program" at --file many.json --pointers many --workers 1 --piece 1073741824 >found.1
    same 'pointers: the same by one worker' "$(cksum <found)" "$(cksum <found.1)"
}

a_file_of_pointers_may_be_at_fault() {
    same 'pointers: no file' "$(lines 'status 2' 'err: jx: missing: cannot open: No such file or directory')" "$(said '[10]' at --pointers missing)"
    same 'pointers: a folder' "$(lines 'status 2' 'err: jx: folder: is a directory')" "$(said '[10]' at /0 --pointers folder)"
    printf '/0\n/\377\n' >bytes
    has 'pointers: bytes that are no text' "$(lines 'status 2' 'err: error: invalid UTF-8')" "$(said '[10]' at --pointers bytes)"
    has 'neither a pointer nor a file of them' "$(lines 'status 2' 'err: error:')" "$(said '[10]' at)"
    has 'pointers are for at alone' "error: unexpected argument '--pointers' found" "$(said '[10]' index --pointers list)"
}

files_and_pointers_are_taken_as_they_stand() {
    printf '[1]' >'-x y'
    printf '[2' >--depth
    same 'a file that begins with a hyphen' "$(lines 'status 0' 'out: accepted')" "$(said '' check --file '-x y')"
    same 'a file named as an option' "$(lines 'status 1' 'out: truncated')" "$(said '' check --file --depth)"
    same 'a file behind =' "$(lines 'status 0' 'out: accepted')" "$(said '' check '--file=-x y')"
    same 'words that begin with a hyphen' "$(lines 'status 2' 'err: jx: --depth: no slash: a FILE stands behind --file')" "$(said '[1]' at -- /0 --depth)"
    same 'commas and spaces in a pointer' "$(lines 'status 0' 'out: found number 8..9')" "$(said '{"a, b":1}' at '/a, b')"
}

# As where a call has options that stand in an alias already.
an_option_that_is_given_twice_counts_as_it_stands_last() {
    same 'a depth' "$(lines 'status 1' 'out: too deep at 1')" "$(said '[[]]' check --depth 9 --depth 1)"
    same 'another order' "$(lines 'status 0' 'out: accepted')" "$(said '[[]]' check --depth 1 --depth 9)"
    printf '[' >short.json
    same 'a file' "$(lines 'status 1' 'out: truncated')" "$(said '' check --file nothing --file short.json)"
    same 'a switch' 'status 1' "$(said '[' check -q -q)"
    same 'workers and pieces' "$(lines 'status 0' 'out: accepted')" "$(said '[]' check --workers 2 --workers 1 --piece 1 --piece 2)"
    same 'of whole' "$(lines 'status 1' 'out: truncated')" "$("$program" part --from 0 <short.json >run; said '' whole --to 9 --to 1 --file run)"
    same 'several pointers stay' "$(lines 'status 0' 'out: found array 1..3' 'out: found array 0..4')" "$(said '[[]]' at --depth 3 /0 --depth 4 '')"
}

# Nothing is read where a word for a pointer is none.
words_that_are_no_pointers_are_refused_before_a_read() {
    local hint='no slash: a FILE stands behind --file' command
    printf '[[7]]' >dump.json
    for command in 'at /0 dump.json' 'at dump.json' 'get /0 dump.json' 'get -c dump.json' 'at dump.json --file dump.json' 'get --lines /a dump.json' 'at none.json'; do
        # shellcheck disable=SC2086
        same "jx $command" "$(lines 'status 2' "err: jx: ${command##* }: $hint")" "$(said '[1]' $command | sed "s/dump.json --file //")"
    done
    same 'what stands on standard input is left' '[1]' "$(printf '[1]' | { "$program" get /a dump.json 2>err; cat; })"
    same 'a bad escape' "$(lines 'status 2' 'err: jx: /~2: bad escape at 1')" "$(said '[1]' at /0 '/~2')"
    printf '/0\nx\n' >list
    same 'a line of a list is answered' "$(lines 'status 1' 'out: found number 1..2' 'out: no slash')" "$(said '[1]' at --pointers list)"
    same 'a name that a terminal obeys' "$(lines 'status 2' 'err: jx: a\x1Bb: '"$hint")" "$(said '[1]' at "$(printf 'a\033b')")"
}

# An absolute path is a pointer too.
each_asks_whether_a_word_is_a_file_or_a_pointer() {
    local path command
    path=$PWD/here.json
    printf '[1,2]' >"$path"
    for command in each keys count; do
        same "the one word of $command names a file" "$(lines 'status 2' "err: jx: $path: names a file: write '' FILE, or POINTER FILE")" "$(said '[1]' $command "$path")"
    done
    same 'a file behind an empty pointer' "$(lines 'status 0' 'out: 1' 'out: 2')" "$(said '' each '' "$path")"
    same 'a pointer that names no file' "$(lines 'status 0' 'out: 7')" "$(said '{"nowhere":[7]}' each /nowhere)"
}

# The program looks whether its standard output is a terminal.
runs_are_not_written_to_a_terminal() {
    if ! command -v script >/dev/null; then
        echo 'statuses.sh: there is no script here: no terminal is tried'
        return
    fi
    printf '[[7]]' >dump.json
    local command
    for command in part 'part --from 0' join; do
        same "jx $command to a terminal" 'jx: a run is not written to a terminal: write it to a file or a pipe' "$(timeout 20 script -qec "'$program' $command <dump.json" /dev/null </dev/null | tr -d '\r')"
        timeout 20 script -qec "'$program' $command <dump.json" /dev/null </dev/null >/dev/null
        same "jx $command to a terminal: its status" 2 $?
    done
}

# The program gets no signal, as where what calls it ignores it.
a_closed_pipe_ends_a_call_without_a_word() {
    local command
    { printf '['; printf '1,%.0s' {1..100000}; printf '1]'; } >big
    { printf '\0361\n%.0s' {1..100000}; } >log
    printf '[' >bad
    for command in 'index big' 'index --file big' 'seq log' 'seq log log' 'check big big' 'check -l bad bad' 'check --format gnu bad' 'check --format json big' 'at --file big /0 /1 /2' 'explain -v big' 'part --file big' 'save big' '--version'; do
        # Its reader is gone before the call begins.
        exec 5> >(true)
        wait $!
        (trap '' PIPE; "$program" $command 2>told >&5; echo $? >status)
        exec 5>&-
        same "jx $command, whose reader goes away" 'status 2, told: ' "status $(cat status), told: $(cat told)"
    done
    "$program" index big 2>told | head -n 1 >first
    same 'jx index big | head -n 1' 'accepted, 2, told: ' "$(cat first), ${PIPESTATUS[0]}, told: $(cat told)"
}

tests a_whole_answer_ends_with_status_0 \
    what_is_refused_or_not_found_ends_with_status_1 \
    quiet_has_the_same_status_and_no_output \
    a_fault_ends_with_status_2 \
    a_message_names_its_input_and_its_pointer \
    a_name_that_is_not_utf_8_is_the_fault_of_its_file \
    a_byte_order_mark_is_refused_or_ignored \
    names_may_have_to_be_unique \
    each_line_of_a_file_is_a_pointer \
    many_pointers_are_answered_in_their_places \
    a_file_of_pointers_may_be_at_fault \
    files_and_pointers_are_taken_as_they_stand \
    an_option_that_is_given_twice_counts_as_it_stands_last \
    words_that_are_no_pointers_are_refused_before_a_read \
    each_asks_whether_a_word_is_a_file_or_a_pointer \
    runs_are_not_written_to_a_terminal \
    a_closed_pipe_ends_a_call_without_a_word
