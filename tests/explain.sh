#!/usr/bin/env bash
# Faults that people can read: the place, a sentence, the line with a caret, and notes; and the same for editors and machines.
. "$(dirname "$0")/lib.sh"

# shown TEXT OPTION..: what `explain` prints of a text.
shown() {
    local text=$1
    shift
    printf "$text" | "$program" explain "$@"
}

# sentence TEXT OPTION..: the place and the sentence alone, between the name and the offset.
sentence() { shown "$@" | sed -n '1s/^-:\(.*\) (byte [0-9]*)$/\1/p'; }

# byte TEXT OPTION..: the offset alone.
byte() { shown "$@" | sed -n '1s/.* (byte \([0-9]*\))$/\1/p'; }

# notes TEXT OPTION..: what stands below the caret.
notes() { shown "$@" | sed 1,3d; }

# object TEXT OPTION..: the object that `check --format json` prints of a text.
object() {
    local text=$1
    shift
    printf "$text" | "$program" check --format json "$@"
}

# marked TEXT OPTION..: what `check --format gnu` prints of a text.
marked() {
    local text=$1
    shift
    printf "$text" | "$program" check --format gnu "$@"
}

the_place_is_a_line_and_a_column_of_characters() {
    same 'the first byte' '1:1: expected a value, found }' "$(sentence '}')"
    same 'a later line' '3:3: expected a value, found ]' "$(sentence '[1,\n2,\n  ]')"
    same 'carriage returns end no line' '2:3: expected a value, found ]' "$(sentence '[1,\r\n  ]')"
    same 'a carriage return alone' '1:6: expected a value, found ]' "$(sentence '[1,\r ]')"
    same 'characters of several bytes' '1:9: expected a value, found x' "$(sentence '["\303\251\360\237\230\200\342\202\254", x')"
    same 'the end of a line without a line feed' '1:4: the text ends where a value is expected' "$(sentence '[1,')"
    same 'the end behind a line feed' '2:1: the text ends where a value is expected' "$(sentence '[1,\n')"
    same 'a fault at a line feed' '1:5: a control character in a string must be escaped' "$(sentence '["ab\n"]')"
    same 'a fault inside a character' '1:3: expected a byte from 80 to 9F, found \xA0' "$(sentence '"\355\240\200"')"
    same 'a byte order mark' '1:1: a byte order mark stands in front of the text' "$(sentence '\357\273\277[1]')"
    same 'a byte order mark that is ignored has a column' '1:3: expected a value or ], found a comma' "$(sentence '\357\273\277[,]' --ignore-bom)"
    same 'a part of a byte order mark' '1:2: a byte order mark is begun and not ended' "$(sentence '\357\2731' --ignore-bom)"
    same 'the end in one' '1:2: the text ends inside a byte order mark' "$(sentence '\357\273' --ignore-bom)"
}

the_sentence_says_what_could_stand_there() {
    same 'an array' '1:2: expected a value or ], found }' "$(sentence '[}')"
    same 'an object' '1:2: expected a string or }, found 1' "$(sentence '{1')"
    same 'a member' '1:8: expected a string, found }' "$(sentence '{"a":1,}')"
    same 'a colon' '1:6: expected a colon, found a comma' "$(sentence '{"a" ,')"
    same 'behind an element' '1:4: expected a comma or ], found }' "$(sentence '[[]}')"
    same 'behind a member' '1:8: expected a comma or }, found ]' "$(sentence '{"a":[]]')"
    same 'behind the value' '1:4: expected the end of the text, found \x01' "$(sentence '{} \001')"
    same 'a number' '1:3: expected a digit, a decimal point, an exponent, a comma or ], found x' "$(sentence '[1x')"
    same 'a leading zero' '1:3: no digit may follow a 0 that begins a number' "$(sentence '[01]')"
    same 'a minus sign' '1:3: expected a digit, found a comma' "$(sentence '[-,')"
    same 'a literal' '1:4: expected e, as in true, found x' "$(sentence 'trux')"
    same 'another literal' '1:5: expected e, as in false, found x' "$(sentence 'falsx')"
    same 'the second letter of one' '1:2: expected u, as in null, found i' "$(sentence 'nil')"
    same 'the end inside a literal' '1:4: the text ends where e, as in true, is expected' "$(sentence 'tru')"
    same 'a zero alone' '-: accepted' "$(shown '0' -v)"
    same 'a fraction below 1' '-: accepted' "$(shown '0.5' -v)"
    same 'a zero behind a minus sign' '1:4: no digit may follow a 0 that begins a number' "$(sentence '[-01]')"
    same 'an escape' '1:3: expected one of " \ / b f n r t u, found x' "$(sentence '"\\x"')"
    same 'a control character' '1:2: a control character in a string must be escaped' "$(sentence '"\t"')"
    same 'inside a string' '2:4: the text ends inside a string that began at line 2, column 1' "$(sentence '[\n"ab')"
    same 'too deep' '1:3: more than 2 containers open' "$(sentence '[[[' --depth 2)"
    same 'a name that was used' '2:1: the name "a" was used at line 1, column 2' "$(sentence '{"a":1,\n"\\u0061":2}' --unique-names)"
    same 'a name that was used, among others' '2:1: the name "a" was used at line 1, column 14' "$(sentence '{"0":1,"A":2,"a":1,"b":3,\n"\\u0061":2}' --unique-names)"
}

the_line_is_shown_with_a_caret() {
    local many
    same 'a whole line' "$(printf '%s\n' '-:2:6: expected a value, found } (byte 9)' '  [1,}' '     ^' 'pointer: /1/1' 'perhaps: a comma too many')" "$(shown '[1,\n  [1,}\n]')"
    same 'a character that takes two columns' "$(printf '%s\n' '-:1:4: expected the end of the text, found x (byte 5)' '"漢"x' '    ^')" "$(shown '"\346\274\242"x')"
    same 'a carriage return before a line feed is not shown' "$(printf '%s\n' '[1,]' '   ^')" "$(shown '[1,]\r\n' | sed -n 2,3p)"
    same 'bytes that are no characters' "$(printf '%s\n' '-:1:2: expected a character in UTF-8, found \xFF (byte 1)' '"\xFF\x01' ' ^')" "$(shown '"\377\001')"
    many=$(printf '1,%.0s' {1..100})
    same 'a long line is cut' "$(printf '%s\n' '-:1:202: expected a value, found a comma (byte 201)' "..${many:163},${many:0:37}.." "$(printf '%39s^' '')" 'pointer: /100' 'perhaps: a comma too many')" "$(shown "[$many,$many")"
    same 'a line that is cut behind the place' "$(printf '%s\n' "[,${many:0:37}.." ' ^')" "$(shown "[,$many" | sed -n 2,3p)"
    same 'a line that is cut before it' "$(printf '%s\n' "..${many:163}," "$(printf '%39s^' '')")" "$(shown "[$many," | sed -n 2,3p)"
    same 'a line that just fits' "$(printf '%s\n' "[${many:0:36},${many:0:37}" "$(printf '%37s^' '')")" "$(shown "[${many:0:36},${many:0:37}" | sed -n 2,3p)"
    same 'a whole line between cut ones is whole' "$(printf '%s\n' '[x' ' ^')" "$(shown "$(printf '%0100d' 0 | tr 0 ' ')\\n[x\\n$many" | sed -n 2,3p)"
    same 'a line of 100 MB' 4 "$({ printf '['; head -c 100000000 /dev/zero | tr '\0' ' '; printf '}'; } | "$program" explain | wc -l)"
}

the_offset_is_that_of_check() {
    local text
    for text in '}' '[1,\n2,\n  ]' '["\303\251", x' '{"a":tru}' '"\355\240\200"' '[[[[' '[1' '' '\357\273\277[1]'; do
        same "the offset in $text" "$(printf "$text" | "$program" check --depth 3 | sed "s/truncated/at $(printf "$text" | wc -c)/; s/.* at //; s/^at //")" "$(byte "$text" --depth 3)"
    done
}

the_pointer_is_of_the_value_at_the_place() {
    same 'an element that may begin' 'pointer: /0' "$(notes '[x')"
    same 'a later element' 'pointer: /2' "$(notes '[[],{"a":[1,2]},?')"
    same 'an element that is begun' 'pointer: /1' "$(notes '[0,1x')"
    same 'behind an element it is the array' 'pointer: /1' "$(notes '[0,[1 }')"
    same 'a member that is due' 'pointer: /b' "$(notes '{"a":1,"b" : ?')"
    same 'in a name it is the object' 'pointer: /0' "$(notes '[{"a":1,"b\t')"
    same 'before a name it is the object' 'pointer: /0' "$(notes '[{"a":1,?')"
    same 'behind a name it is the object' 'pointer: /0' "$(notes '[{"a" ?')"
    same 'the whole text has none' '' "$(notes '?')"
    same 'a slash and a tilde in a name' 'pointer: /a~1b~0c/0' "$(notes '{"a/b~c":[?')"
    same 'an escape in a name' 'pointer: /é/x' "$(notes '{"\\u00e9":{"\\u0078":?')"
    same 'what is not printed in a name' 'pointer: /\x0A\xE2\x80\xAE' "$(notes '{"\\n\342\200\256":?')"
    same 'a name that stands for no text' '' "$(notes '{"\\ud800":?')"
    same 'too deep' 'pointer: /0/1' "$(notes '[[0,[' --depth 2)"
    same 'a name that was used: the object' 'pointer: /0' "$(notes '[{"a":1,"a":2}]' --unique-names)"
    same 'behind a byte order mark' 'pointer: /0' "$(notes '\357\273\277[?' --ignore-bom)"
    same 'an end inside a value' "$(printf '%s\n' 'pointer: /a/1' 'open: { [')" "$(notes '{"a":[1,tr')"
    same 'jx at finds it in the text that is mended' 'found number 9..10' "$(printf '[[],{"a":1}]' | "$program" at "$(notes '[[],{"a":x}]' | sed -n 's/^pointer: //p')")"
}

open_brackets_are_told_where_the_text_ends() {
    local many
    same 'none' '' "$(notes '')"
    same 'none is told where a byte stops it' 'pointer: /1' "$(notes '[1,?')"
    same 'one' "$(printf '%s\n' 'pointer: /0' 'open: [')" "$(notes '[')"
    same 'those that were closed are left out' "$(printf '%s\n' 'pointer: /b' 'open: {')" "$(notes '{"a":[1,{}],"b":')"
    many=$(printf '[%.0s' {1..32})
    same 'many' "open:$(printf ' [%.0s' {1..32})" "$(notes "$many" | sed -n 2p)"
    same 'too many for a line' "open: ..$(printf ' [%.0s' {1..31}) {" "$(notes "[$many{" | sed -n 2p)"
}

# guess TEXT: what the text probably is.
guess() { notes "$1" | sed -n 's/^perhaps: //p'; }

likely_mistakes_are_named() {
    same 'a comma before a bracket' 'a comma too many' "$(guess '[1,]')"
    same 'a comma before a brace' 'a comma too many' "$(guess '{"a":1,}')"
    same 'two commas' 'a comma too many' "$(guess '[1,,2]')"
    same 'no comma in an array' 'a comma is missing' "$(guess '[1 2]')"
    same 'no comma in an object' 'a comma is missing' "$(guess '{"a":1\n"b":2}')"
    same 'single quotes around a value' 'single quotes, where JSON has double ones' "$(guess "['a']")"
    same 'single quotes around a name' 'single quotes, where JSON has double ones' "$(guess "{'a':1}")"
    same 'no quotes around a name' 'a name without quotation marks' "$(guess '{a:1}')"
    same 'NaN' 'NaN, which JSON has not' "$(guess '[NaN]')"
    same 'nan' 'NaN, which JSON has not' "$(guess '[nan]')"
    same 'Infinity' 'Infinity, which JSON has not' "$(guess '{"a":Infinity}')"
    same 'a negative Infinity' 'Infinity, which JSON has not' "$(guess '{"a":-Infinity}')"
    same 'undefined' 'undefined, which JSON has not' "$(guess 'undefined')"
    same 'True' 'true, in small letters' "$(guess '[True]')"
    same 'FALSE' 'false, in small letters' "$(guess '[FALSE]')"
    same 'None' 'null, which is None elsewhere' "$(guess '{"a":None}')"
    same 'a longer word is another' '' "$(guess '[Nones]')"
    same 'a hexadecimal number' 'a hexadecimal number, which JSON has not' "$(guess '[0x1F]')"
    same 'a comment of a line' 'a comment, which JSON has not' "$(guess '[1, // one\n2]')"
    same 'a comment of a script' 'a comment, which JSON has not' "$(guess '# one\n[]')"
    same 'JSON Lines' 'a second text: in JSON Lines each line is one' "$(guess '{"a":1}\n{"a":2}\n')"
    same 'two texts in a row' 'a second text right behind the first' "$(guess '{"a":1}{"a":2}')"
    same 'two texts in a line' 'a second text right behind the first' "$(guess '\n[1] [2]')"
    same 'a second text behind blanks of its line' 'a second text: in JSON Lines each line is one' "$(guess '1\n 2')"
    same 'a byte order mark' 'a byte order mark, which --ignore-bom ignores' "$(guess '\357\273\277[1]')"
    same 'UTF-16 behind its mark' 'UTF-16, where JSON has UTF-8' "$(guess '\377\376[\000]\000')"
    same 'UTF-16, the other order' 'UTF-16, where JSON has UTF-8' "$(guess '\376\377\000[\000]')"
    same 'UTF-16 without a mark' 'UTF-16, where JSON has UTF-8' "$(guess '[\0001\000')"
    same 'that in the other order' 'UTF-16, where JSON has UTF-8' "$(guess '\000[\0001')"
    same 'gzip' 'what gzip has packed' "$(guess '\037\213\010\000')"
    same 'zstd' 'what zstd has packed' "$(guess '\050\265\057\375')"
    same 'quotation marks of letters' 'quotation marks of letters, where JSON has "' "$(guess '[\342\200\234a\342\200\235]')"
    same 'the same around a name' 'quotation marks of letters, where JSON has "' "$(guess '{\342\200\231a\342\200\231:1}')"
    same 'a string that its line ends' 'a string without its closing quotation mark' "$(guess '{"a":"b\n}')"
    same 'a string that goes on to the next one' 'a quotation mark is missing, or one is not escaped' "$(guess '{"a":"b, "c":1}')"
    same 'a name that does' 'a quotation mark is missing, or one is not escaped' "$(guess '{"a:1, "b":2}')"
    same 'quotation marks in a string' 'a quotation mark is missing, or one is not escaped' "$(guess '["say "hi" now"]')"
    same 'a string that goes on to digits' 'a quotation mark is missing, or one is not escaped' "$(guess '{"a":"b, "1":2}')"
    same 'a size in inches' 'a quotation mark is missing, or one is not escaped' "$(guess '["a 5" screen"]')"
    same 'letters beyond ASCII behind a string' 'a quotation mark is missing, or one is not escaped' "$(guess '["a "\303\251" b"]')"
    same 'a backslash behind a string' 'a quotation mark is missing, or one is not escaped' "$(guess '["a"\\n"]')"
    same 'a digit behind a string and a blank' 'a comma is missing' "$(guess '["a" 1]')"
    same 'a literal behind a string' 'a comma is missing' "$(guess '["a" true]')"
    same 'a byte order mark between texts' 'a byte order mark between two texts' "$(guess '{}\n\357\273\277{}')"
    same 'a text sequence' 'a text sequence, which jx seq reads' "$(guess '\036{}\n')"
    same 'a page' 'HTML or XML, where JSON is due' "$(guess '\n<html>')"
    same 'an angle bracket in a text' '' "$(guess '[<')"
    same 'a letter behind a number' '' "$(guess '{"a":1 b')"
    same 'another word has no guess' '' "$(guess '[x]')"
    same 'nor has a bracket of the other kind' '' "$(guess '[1}')"
    same 'nor has what is accepted' '' "$(guess '[1]')"
}

it_is_told_of_accepted_texts_where_that_is_asked_for() {
    printf '[1]' >good.json
    printf '[1,]' >bad.json
    same 'one that is accepted' 'status 0' "$(said '' explain good.json)"
    same 'standard input' 'status 0' "$(said '[1]' explain)"
    same 'verbose' "$(printf '%s\n' 'status 0' 'out: good.json: accepted')" "$(said '' explain -v good.json)"
    same 'verbose, in a word' "$(printf '%s\n' 'status 0' 'out: -: accepted')" "$(said '[1]' explain --verbose)"
    same 'several' "$(printf '%s\n' 'status 0' 'out: good.json: accepted' 'out: good.json: accepted')" "$(said '' explain good.json good.json)"
    same 'refused ones alone: all accepted' 'status 0' "$(said '' explain --refused good.json good.json)"
    same 'refused ones alone' "$(said '' explain bad.json)" "$(said '' explain --refused good.json bad.json)"
    has 'both' "error: the argument '--refused' cannot be used with '--verbose'" "$(said '' explain --refused -v good.json)"
}

several_files_are_explained_in_their_order() {
    same 'three words' "$(printf '%s\n' 'status 1' 'out: good.json: accepted' 'out: bad.json:1:4: expected a value, found ] (byte 3)' 'out: [1,]' 'out:    ^' \
        'out: pointer: /1' 'out: perhaps: a comma too many' 'out: -:1:2: the text ends where a string or } is expected (byte 1)' 'out: {' 'out:  ^' 'out: open: {')" \
        "$(said '{' explain good.json bad.json -)"
    same 'what is not to be had is told, and the others go on' "$(printf '%s\n' 'status 2' 'out: good.json: accepted' 'err: jx: missing: cannot open: No such file or directory')" \
        "$(said '' explain missing good.json)"
    same 'all accepted' 0 "$("$program" explain good.json good.json >out; echo $?)"
    same 'standard input is named once' "$(printf '%s\n' 'status 2' "err: error: the word '-' stands for standard input, which is read once")" "$(said '[1]' explain - -)"
}

refused_files_alone_are_listed() {
    same 'of three' "$(printf '%s\n' 'status 1' 'out: bad.json' 'out: -')" "$(said '{' check -l good.json bad.json -)"
    same 'one that is accepted' 'status 0' "$(said '' check --list good.json)"
    same 'one that is refused' "$(printf '%s\n' 'status 1' 'out: bad.json')" "$(said '' check -l --file bad.json)"
    same 'one that is missing' "$(printf '%s\n' 'status 2' 'out: bad.json' 'err: jx: missing: cannot open: No such file or directory')" "$(said '' check -l missing bad.json)"
    same 'settings count' "$(printf '%s\n' 'status 1' 'out: good.json')" "$(said '' check -l --depth 0 good.json)"
    has 'quiet and a list' "error: the argument '--list' cannot be used with '--quiet'" "$(said '' check -l -q good.json)"
}

editors_have_a_line_for_each_refused_file() {
    same 'three words' "$(printf '%s\n' 'status 1' 'out: bad.json:1:4: expected a value, found ] (byte 3)' 'out: -:2:1: the text ends where a string or } is expected (byte 2)')" \
        "$(said '{\n' check --format gnu good.json bad.json -)"
    same 'the same sentence as for people' "$(shown '[1,tru' | head -n 1)" "$(printf '[1,tru' | "$program" check --format gnu)"
    same 'columns count bytes: a tab' '-:1:3: expected a value or ], found x (byte 2)' "$(marked '[\tx')"
    same 'a character of two bytes' '-:1:8: expected a value, found x (byte 7)' "$(marked '["\303\251", x')"
    same 'one that takes two columns of a terminal' '-:1:9: expected a value, found x (byte 8)' "$(marked '["\346\274\242", x')"
    same 'one of four bytes, in a later line' '-:2:9: expected a value, found x (byte 10)' "$(marked '[\n"\360\237\230\200", x')"
    same 'a letter and its accent' '-:1:9: expected a value, found x (byte 8)' "$(marked '["e\314\201", x')"
    same 'inside a character' '-:1:3: expected a byte from 80 to 9F, found \xA0 (byte 2)' "$(marked '"\355\240\200"')"
    same 'a byte order mark' '-:1:5: expected a value or ], found a comma (byte 4)' "$(marked '\357\273\277[,]' --ignore-bom)"
    same 'the end' '-:2:6: the text ends where a comma or ] is expected (byte 7)' "$(marked '[\n"\303\251" ')"
    same 'plain is the default' "$(said '' check good.json bad.json)" "$(said '' check --format plain good.json bad.json)"
    has 'another word' "error: invalid value 'xml' for '--format <FORMAT>'" "$(said '' check --format xml good.json)"
    has 'a format and a list' "error: the argument '--format <FORMAT>' cannot be used with" "$(said '' check --format gnu -l good.json)"
    has 'a format and quiet' "error: the argument '--format <FORMAT>' cannot be used with" "$(said '' check --format json -q good.json)"
}

machines_have_an_object_for_each_file() {
    same 'accepted' '{"name":"-","verdict":"accepted"}' "$(object '[1]')"
    same 'stopped' '{"name":"-","verdict":"stopped","offset":10,"line":2,"column":8,"sentence":"expected a value, found ?","pointer":"/0/b\"c"}' "$(object '[{\n"b\\"c":?')"
    same 'a backslash in the sentence' '"expected a value or ], found \\"' "$(object '[\\' | "$program" get /sentence)"
    same 'truncated' '{"name":"-","verdict":"truncated","offset":1,"line":1,"column":2,"sentence":"the text ends where a value or ] is expected","pointer":"/0"}' "$(object '[')"
    same 'too deep' '{"name":"-","verdict":"too deep","offset":1,"line":1,"column":2,"sentence":"more than 1 containers open","pointer":"/0"}' "$(object '[[' --depth 1)"
    same 'a repeated name' '{"name":"-","verdict":"repeated name","offset":7,"line":1,"column":8,"sentence":"the name \"a\" was used at line 1, column 2","pointer":""}' "$(object '{"a":1,"a":2}' --unique-names)"
    same 'a name that stands for no text' 'null' "$(object '{"\\ud800":?' | sed 's/.*"pointer"://; s/}$//')"
    printf '[1,]' >$'q"\\\n\001\033é\177'
    "$program" check --format json good.json $'q"\\\n\001\033é\177' >objects
    same 'several files: status' 1 $?
    same 'several files: a line each' 2 "$(wc -l <objects)"
    same 'each is a text' "$(printf '%s\n' accepted accepted)" "$(while read -r line; do printf '%s' "$line" | "$program" check; done <objects)"
    same 'its name is that of the file' "$(printf 'q"\\\n\001\033é\177\n|')" "$(tail -n 1 objects | "$program" get -r /name; printf '|')"
    same 'its pointer' '"/1"' "$(tail -n 1 objects | "$program" get /pointer)"
    same 'a file that is missing has none' "$(printf '%s\n' 'status 2' 'out: {"name":"good.json","verdict":"accepted"}' 'err: jx: missing: cannot open: No such file or directory')" \
        "$(said '' check --format json missing good.json)"
}

# held WORD..: whether a call of the program with one worker takes 40 MB or more at once.
held() {
    python3 -c 'import resource, subprocess, sys
subprocess.run([*sys.argv[1:], "--workers", "1"], stdout=subprocess.DEVNULL)
print("held" if resource.getrusage(resource.RUSAGE_CHILDREN).ru_maxrss >= 40000 else "not held")' "$program" "$@"
}

a_long_input_is_not_held() {
    local words
    { printf '['; head -c 60000000 /dev/zero | tr '\0' ' '; printf '0]'; } >long.json
    { cat long.json; printf ' x'; } >longer.json
    same 'a long file' 'long.json: accepted' "$("$program" explain -v long.json)"
    same 'a long file for machines' '{"name":"long.json","verdict":"accepted"}' "$("$program" check --format json long.json)"
    same 'a long file for editors' '' "$("$program" check --format gnu long.json)"
    same 'its memory' 'not held' "$(held explain long.json)"
    same 'its memory, for machines' 'not held' "$(held check --format json long.json)"
    same 'a long file that is refused' 'longer.json:1:60000005: expected the end of the text, found x (byte 60000004)' "$("$program" check --format gnu longer.json)"
    for words in explain 'check --format gnu' 'check --format json'; do
        # shellcheck disable=SC2086
        same "its memory, by $words" 'not held' "$(held $words longer.json)"
    done
    same 'its memory where names have to be unique' 'held' "$(held explain --unique-names longer.json)"
    same 'a long file from a pipe' '-: accepted' "$(cat long.json | "$program" explain -v)"
    same 'one that is refused' "$("$program" explain longer.json | sed 's/^longer.json/-/')" "$(cat longer.json | "$program" explain)"
    same 'its memory' 'not held' "$(cat longer.json | held explain)"
    rm long.json longer.json
}

# A fault far behind what it is in, and names and strings that one read does not hold.
what_is_far_from_the_fault_is_known() {
    local wide
    wide=$(printf '%0300000d' 0)
    { printf '{"a":[1,{"b\\u0063 %s":[' "$wide"; printf '0,%.0s' {1..100000}; printf '?'; } >far.json
    same 'its pointer' "/a/1/bc $wide/100000" "$("$program" check --format json far.json | "$program" get -r /pointer)"
    same 'from a pipe' "/a/1/bc $wide/100000" "$(cat far.json | "$program" check --format json | "$program" get -r /pointer)"
    { printf '[1,\n "%s' "$wide"; } >open.json
    same 'a string that ends nowhere' 'the text ends inside a string that began at line 2, column 2' "$("$program" check --format json open.json | "$program" get -r /sentence)"
    { printf '{"a":"%s' "$wide"; printf ', "b":1}'; } >quote.json
    same 'a string far before' 'perhaps: a quotation mark is missing, or one is not escaped' "$("$program" explain quote.json | tail -n 1)"
    { printf '[\n\n'; printf '%300000s' ''; printf ']]'; } >blank.json
    same 'blanks far before' "blank.json:3:300002: expected the end of the text, found ] (byte 300004)" "$("$program" check --format gnu blank.json)"
    same 'a text that comes byte by byte' "$(printf '{"a b":[1,{"c":x' | "$program" explain)" \
        "$({ for byte in '{' '"a' ' b' '"' ':' '[' '1' ',' '{' '"' 'c' '"' ':' 'x'; do printf '%s' "$byte"; sleep 0.02; done; } | "$program" explain)"
    same 'a mark that comes byte by byte' '-:1:3: expected a value or ], found a comma (byte 4)' \
        "$({ printf '\357'; sleep 0.1; printf '\273'; sleep 0.1; printf '\277'; sleep 0.1; printf '[,]'; } | "$program" explain --ignore-bom | head -n 1)"
    same 'a part of one' '-:1:2: a byte order mark is begun and not ended (byte 2)' \
        "$({ printf '\357'; sleep 0.1; printf '\273'; sleep 0.1; printf '1'; } | "$program" explain --ignore-bom | head -n 1)"
}

the_name_is_that_of_the_file() {
    printf '[1,]' >'a b.json'
    same 'a file' 'a b.json:1:4: expected a value, found ] (byte 3)' "$("$program" explain 'a b.json' | head -n 1)"
    same 'by the option' "$("$program" explain 'a b.json')" "$("$program" explain --file 'a b.json')"
    same 'a name that is not printed' '\x1B:1:1: the text ends where a value is expected (byte 0)' "$(: >$'\033'; "$program" explain $'\033' | head -n 1)"
    same 'a text that is accepted' "$(printf '%s\n' 'status 0' 'out: a b.json: accepted')" "$(printf '[1]' >'a b.json'; said '' explain -v 'a b.json')"
    has 'a text that is refused: its status' 'status 1' "$(said '[1' explain)"
    same 'no such file' "$(printf '%s\n' 'status 2' 'err: jx: missing: cannot open: No such file or directory')" "$(said '' explain missing)"
    same 'a folder' "$(printf '%s\n' 'status 2' 'err: jx: .: is a directory')" "$(said '' explain .)"
}

colors_are_shown_where_they_are_asked_for() {
    local esc=$'\033'
    same 'always' "$(printf '%s\n' "$esc[1m-:1:2:$esc[0m expected a value or ], found } (byte 1)" '[}' " $esc[1;31m^$esc[0m" 'pointer: /0')" "$(shown '[}' --color always)"
    same 'always, with NO_COLOR' "$(shown '[}' --color always)" "$(export NO_COLOR=1; shown '[}' --color always)"
    same 'never' "$(shown '[}')" "$(shown '[}' --color never)"
    same 'auto, into a pipe' "$(shown '[}' --color never)" "$(shown '[}' --color auto)"
    if command -v script >/dev/null; then
        printf '[}' >text
        has 'auto, on a terminal' "$esc[1m-:1:2:" "$(env -u NO_COLOR TERM=xterm script -qec "'$program' explain <text" /dev/null)"
        has 'auto, on a terminal, with an empty NO_COLOR' "$esc[1m-:1:2:" "$(NO_COLOR='' TERM=xterm script -qec "'$program' explain <text" /dev/null)"
        same 'auto, on a terminal, with NO_COLOR' "$(shown '[}')" "$(NO_COLOR=1 TERM=xterm script -qec "'$program' explain <text" /dev/null | tr -d '\r')"
        same 'auto, on a terminal that is dumb' "$(shown '[}')" "$(env -u NO_COLOR TERM=dumb script -qec "'$program' explain <text" /dev/null | tr -d '\r')"
    fi
}

tests the_place_is_a_line_and_a_column_of_characters \
    the_sentence_says_what_could_stand_there \
    the_line_is_shown_with_a_caret \
    the_offset_is_that_of_check \
    the_pointer_is_of_the_value_at_the_place \
    open_brackets_are_told_where_the_text_ends \
    likely_mistakes_are_named \
    it_is_told_of_accepted_texts_where_that_is_asked_for \
    several_files_are_explained_in_their_order \
    refused_files_alone_are_listed \
    editors_have_a_line_for_each_refused_file \
    machines_have_an_object_for_each_file \
    a_long_input_is_not_held \
    what_is_far_from_the_fault_is_known \
    the_name_is_that_of_the_file \
    colors_are_shown_where_they_are_asked_for
