#!/usr/bin/env bash
# Values by pointers: their bytes, what is told where there is none, and what happens where nothing can be written.
. "$(dirname "$0")/lib.sh"

# lines TEXT..: each on a line of its own.
lines() { printf '%s\n' "$@"; }

# compared FILE: the counts of a comparison in Python are added to those here.
compared() {
    local said last
    said=$(JX_PROGRAM=$program python3 "$root/tests/$1" 2>&1)
    same "$1 ends well" 0 $?
    last=${said##*$'\n'}
    if [[ $last =~ ([0-9]+)\ passed,\ ([0-9]+)\ failed ]]; then
        passed=$((passed + BASH_REMATCH[1]))
        failed=$((failed + BASH_REMATCH[2]))
    fi
    if [[ ! $last =~ \ 0\ failed$ ]]; then echo "${said: -3000}"; fi
}

values_are_those_that_pointers_lead_to() { compared values.py; }

values_of_lines_are_those_that_pointers_lead_to() { compared line_values.py; }

elements_are_one_for_all_workers() { compared elements_by_workers.py; }

each_pointer_has_its_line() {
    same 'a line for each pointer, in order' "$(lines 'status 0' 'out: 2' 'out: 1')" "$(said '{"a":1,"b":2}' get /b /a)"
    same 'bytes as they stand' "$(lines 'status 0' 'out: "\u0061\/"')" "$(said '{"a" : "\\u0061\\/" }' get /a)"
    same 'line ends between tokens stay' "$(lines 'status 0' 'out: [1,' 'out: 2]')" "$(said '{"a": [1,\n2]}' get /a)"
    same 'no pointer leads to a value' "$(lines 'status 1' 'out: ' 'out: ' 'err: jx: -: /c: no such member at token 0' 'err: jx: -: /a/0: not a container at token 1')" \
        "$(said '{"a":1}' get /c /a/0)"
    same 'a refused text' "$(lines 'status 1' 'err: jx: -: stopped at 3')" "$(said '[1 2]' get /0 /x)"
    same 'a text that ends early' "$(lines 'status 1' 'err: jx: -: truncated')" "$(said '[1' get /0)"
    same 'a text that is too deep' "$(lines 'status 1' 'err: jx: -: too deep at 1')" "$(said '[[1]]' get --depth 1 /0)"
    same 'a name that comes again' "$(lines 'status 1' 'out: ' 'err: jx: -: /a: name repeated at token 0')" "$(said '{"a":1,"a":2}' get /a)"
    same 'unique names' "$(lines 'status 1' 'err: jx: -: repeated name at 7')" "$(said '{"a":1,"a":2}' get --unique-names /a)"
    same 'a mark that is ignored' "$(lines 'status 0' 'out: [7]')" "$(said '\xef\xbb\xbf[7]' get --ignore-bom '')"
}

compact_values_are_one_line() {
    same 'no blanks between tokens' "$(lines 'status 0' 'out: {"a b":[1,true,"x\u0020 y"],"":{}}')" \
        "$(said ' {"a b" :\t[1 ,\r\ntrue , "x\\u0020 y" ], "":{ }\n} ' get -c '')"
    same 'backslashes before quotation marks' "$(lines 'status 0' 'out: ["\\"," ","\" , "]')" "$(said '[ "\\\\" , " " , "\\" , " ]' get --compact '')"
    same 'numbers stay as they are spelt' "$(lines 'status 0' 'out: [1.0,-0,1E+2]')" "$(said '[ 1.0 , -0 , 1E+2 ]' get -c '')"
    same 'of several values' "$(lines 'status 1' 'out: [1,2]' 'out: ' 'out: {}' 'err: jx: -: /2: past end at token 0')" "$(said '[[1,\n2], { }]' get -c /0 /2 /1)"
    python3 -c '
strings = ["\"" + "y " * (n % 50) + "\\\\\"" for n in range(20000)]
open("blank", "w").write("[" + " ,\t".join(strings) + "\r\n]\n")
open("wanted", "w").write("[" + ",".join(strings) + "]\n")'
    "$program" get -c '' <blank >got
    same 'a value longer than a chunk and than the buffer' same "$(cmp -s wanted got && echo same)"
}

strings_are_written_as_texts() {
    same 'the text of a string' "$(lines 'status 0' 'out: a"/é' 'out: 1' 'out: ["a"]')" \
        "$(said '{"a":"a\\"\\/\\u00E9","b":[1,"x",["a"]]}' get -r /a /b/0 /b/2)"
    same 'an empty string has an empty line' "$(lines 'status 0' 'out: ' 'out: null')" "$(said '["",null]' get --raw /0 /1)"
    same 'a line end of a text' "$(lines 'status 0' 'out: a' 'out: b')" "$(said '"a\\nb"' get -r '')"
    same 'surrogate pairs, as they stand and by escapes' "$(lines 'status 0' 'out: 😀😀')" "$(said '"😀\\ud83d\\uDE00"' get -r '')"
    same 'what is no string is compact with both options' "$(lines 'status 0' 'out: {"a":"\n"}' 'out: x y')" "$(said '[{"a" : "\\n"}, "x y"]' get -r -c /0 /1)"
    same 'half a surrogate pair' "$(lines 'status 1' 'out: ' 'out: ' 'out: ab' 'out: ' 'err: jx: -: /0: half a surrogate pair' \
        'err: jx: -: /1: half a surrogate pair' 'err: jx: -: /3: past end at token 0')" "$(said '["x\\ud83d","\\ude00\\ud83d","ab"]' get -r /0 /1 /2 /3)"
    local shown='/\x0A\x5C:\x20'
    same 'a message is one line, whatever its pointer has' "$(lines 'status 1' 'out: ' "err: jx: -: $shown: no such member at token 0")" "$(said '{}' get $'/\n\\: ')"
    same 'and so is that of a word' "$(lines 'status 2' "err: jx: $shown~: bad escape at 5")" "$(said '{}' get $'/\n\\: ~')"
    same 'halves inside of what is no string stay' "$(lines 'status 0' 'out: ["\ud83d"]')" "$(said '["\\ud83d"]' get -r '')"
    printf '"a\\u0000b"' | "$program" get -r '' >got
    same 'a null character' '61 00 62 0a' "$(od -An -tx1 got | sed 's/^ //')"
    python3 -c '
import json
text = json.dumps("".join(chr(0x20 + n % 90) + "\u00e9\n\U0001f600" * (n % 3) for n in range(50000)))
open("text", "w").write("[" + text + "," + text + "]")
open("wanted", "w").write((json.loads(text) + "\n") * 2)'
    "$program" get -r /0 /1 <text >got
    same 'texts longer than the buffer' same "$(cmp -s wanted got && echo same)"
}

pointers_are_lines_of_a_file() {
    printf '/a\n\n/b/0' >list
    printf '{"a":"x","b":[null]}' >text
    same 'lines of a file behind words' "$(lines null '"x"' '{"a":"x","b":[null]}' null)" "$("$program" get /b/0 --pointers list --file text)"
    same 'no such list' "$(lines 'jx: missing: cannot open: No such file or directory' 'status 2')" "$("$program" get --pointers missing --file text 2>&1; echo "status $?")"
    same 'no such text' "$(lines 'jx: missing: cannot open: No such file or directory' 'status 2')" "$("$program" get '' --file missing 2>&1; echo "status $?")"
    same 'a folder' "$(lines 'jx: .: is a directory' 'status 2')" "$("$program" get '' --file . 2>&1; echo "status $?")"
    has 'no pointer at all' 'required arguments' "$("$program" get --file text 2>&1)"
}

long_values_are_written_whole() {
    python3 -c 'print("[%s,%s]" % ("\"" + "x" * 300000 + "\"", ",".join(map(str, range(50000)))))' >text
    "$program" get /0 /1 '' /50000 <text >got
    python3 -c '
text = open("text").read()[:-1]
open("wanted", "w").write("\"" + "x" * 300000 + "\"\n0\n" + text + "\n49999\n")'
    same 'values longer than a buffer' same "$(cmp -s wanted got && echo same)"
}

one_value_is_kept_while_a_text_is_read() {
    cat >texts.py <<'END'
import os, subprocess, sys, time
program, how = sys.argv[1:]
values = ['"abc\\u0064ef"', "-123.5e6", '[{ }, [1,\n2]]', "null"]
failed = 0
def answers(bytes_of, pointers, size):
    run = subprocess.Popen([program, "get", *pointers], stdin=subprocess.PIPE, stdout=subprocess.PIPE)
    if size:
        for at in range(0, len(bytes_of), size):
            os.write(run.stdin.fileno(), bytes_of[at : at + size])
            time.sleep(0.001)
        run.stdin.close()
        return run.stdout.read()
    return run.communicate(bytes_of)[0]
for before in range(262144 - 12, 262144) if how == "border" else [2]:
    for at, value in enumerate(values):
        text = ("[" + " " * (before - 1) + value + ",[" + ",".join(values) + "]]").encode()
        for pointers, wanted in ((["/0"], [value]), (["/1/%d" % at, "/0", "/2", "/0"], [value, value, "", value]), (["/2"], [""])):
            failed += answers(text, pointers, 1 if how == "bytes" else 0) != "".join(line + "\n" for line in wanted).encode()
print("failed", failed)
END
    same 'values over the border of a read' 'failed 0' "$(python3 texts.py "$program" border 2>err)"
    same 'a text that comes byte by byte' 'failed 0' "$(python3 texts.py "$program" bytes 2>err)"
    same 'a value that is met again' "$(lines 'out: ' 'jx: -: /a: name repeated at token 0')" \
        "$(python3 -c 'print("{\"a\":[1],%s\"a\":2}" % (" " * 300000))' | "$program" get /a 2>&1 | sed '1s/^/out: /')"
    same 'one value of a text that is longer than the memory' '[1]' \
        "$(python3 -c 'print("[%s[1]%s]" % ("0," * 10000000, ",0" * 10000000))' | (ulimit -v 30000 && "$program" get --workers 1 /10000000))"
    same 'several values of one that is, one inside of another and one twice' "$(lines 1 '[1]' 0 0 1)" \
        "$(python3 -c 'print("[%s[1]%s]" % ("0," * 10000000, ",0" * 10000000))' |
            (ulimit -v 30000 && "$program" get --workers 1 /10000000/0 /10000000 /20000000 /0 /10000000/0))"
    same 'a long value that no pointer of several leads to' "$(lines 1 2)" \
        "$(python3 -c 'print("{\"a\":1,\"b\":\"%s\",\"c\":2}" % ("x" * 40000000))' | (ulimit -v 30000 && "$program" get --workers 1 /a /c))"
}

values_by_an_index() {
    printf '{"a": [1,\n2],"b":"x\\u0041","c":"%0300d"}' 0 >many
    "$program" save --chunk 64 many >many.jxi
    same 'as without an index' "$(said '' get --file many /a /b /c '' /d x)" "$(said '' get --index many.jxi --file many /a /b /c '' /d x)"
    same 'compact' "$(lines 'status 0' 'out: [1,2]')" "$(said '' get -c --index many.jxi --file many /a)"
    same 'a text' "$(lines 'status 0' 'out: xA')" "$(said '' get -r --index many.jxi --file many /b)"
    printf '/b\n/a/1' >list
    same 'a list' "$(lines 'status 0' 'out: 1' 'out: "x\u0041"' 'out: 2')" "$(said '' get --index many.jxi --file many --pointers list /a/0)"
    (head -c 200 many; printf 1; tail -c +202 many) >changed
    same 'whole lines stand before a fault' "$(lines 'status 2' 'out: [1,' 'out: 2]' 'err: jx: changed: changed in 192..256')" \
        "$(said '' get --index many.jxi --file changed /a /c /b)"
    same 'what is not read may have changed' "$(lines 'status 0' 'out: 1')" "$(said '' get --index many.jxi --file changed /a/0)"
    same 'the look-up needs the end' "$(lines 'status 2' 'err: jx: changed: changed in 320..334')" \
        "$( (head -c 333 many; printf ' ') >changed; said '' get --index many.jxi --file changed /a)"
    same 'another size' "$(lines 'status 2' 'err: jx: list: 7 bytes, and the index is of 334')" "$(said '' get --index many.jxi --file list /a)"
    same 'a text for an index' "$(lines 'status 2' 'err: jx: many: not a saved index')" "$(said '' get --index many --file many /a)"
    same 'no index' "$(lines 'status 2' 'err: jx: missing: cannot open: No such file or directory')" "$(said '' get --index missing --file many /a)"
    python3 -c 'print("[%s,%s]" % ("\"" + "x" * 300000 + "\"", ",".join(map(str, range(50000)))), end="")' >long
    "$program" save long >long.jxi
    "$program" get /0 /1 '' /50000 <long >wanted
    "$program" get --index long.jxi --file long /0 /1 '' /50000 >got
    same 'values of many chunks' same "$(cmp -s wanted got && echo same)"
    if [ -w /dev/full ]; then
        same 'nowhere to write to by an index' "$(lines 'jx: write failed: No space left on device' 'status 2')" "$("$program" get --index many.jxi --file many /a 2>&1 >/dev/full; echo "status $?")"
        same 'nowhere to tell to by an index' "$(lines '' 'status 1')" "$("$program" get --index many.jxi --file many /d 2>/dev/full; echo "status $?")"
    fi
}

what_cannot_be_written_or_told() {
    if [ -w /dev/full ]; then
        same 'nowhere to write to' "$(lines 'jx: write failed: No space left on device' 'status 2')" "$(printf '{"a":1}' | "$program" get /a /b 2>&1 >/dev/full; echo "status $?")"
        same 'nowhere to tell to' "$(lines 1 '' 'status 1')" "$(printf '{"a":1}' | "$program" get /a /b 2>/dev/full; echo "status $?")"
        same 'nowhere to write much to' "$(lines 'jx: write failed: No space left on device' 'status 2')" "$("$program" get '' <text 2>&1 >/dev/full; echo "status $?")"
        same 'a refused text, and nowhere to write to' "$(lines 'jx: -: stopped at 0' 'status 1')" "$(printf x | "$program" get '' 2>&1 >/dev/full; echo "status $?")"
    fi
}

each_element_has_its_line() {
    same 'of an array' "$(lines 'status 0' 'out: 1' 'out: {"a b":[2,3]}' 'out: "x\u0020 y"')" "$(said ' [1 , {"a b" :\t[2 ,\r\n3 ]},"x\\u0020 y"\n] ' each)"
    same 'of an object' "$(lines 'status 0' 'out: 1' 'out: [{}]')" "$(said '{"a" : 1 ,"[,:" : [ { } ] }' each)"
    same 'of none' 'status 0' "$(said '[ ]' each)"
    same 'of an object without members' 'status 0' "$(said '{ }' each)"
    same 'of a scalar' "$(lines 'status 1' "err: jx: -: '': not a container at token 0")" "$(said ' "[1,2]" ' each)"
    same 'before a fault' "$(lines 'status 1' 'out: 1' 'out: 2' 'err: jx: -: stopped at 6')" "$(said '[1,2,3x' each)"
    same 'a comma is needed' "$(lines 'status 1' 'out: 1' 'err: jx: -: truncated')" "$(said '[1,2 ' each)"
    same 'behind the root' "$(lines 'status 1' 'out: 1' 'err: jx: -: stopped at 4')" "$(said '[1] ,2]' each)"
    same 'too deep' "$(lines 'status 1' 'out: 1' 'err: jx: -: too deep at 3')" "$(said '[1,[2]]' each --depth 1)"
    same 'a mark is ignored' "$(lines 'status 0' 'out: 7')" "$(said '\xef\xbb\xbf[7]' each --ignore-bom)"
    same 'a mark is refused' "$(lines 'status 1' 'err: jx: -: stopped at 0')" "$(said '\xef\xbb\xbf[7]' each)"
    same 'no text at all' "$(lines 'status 1' 'err: jx: -: truncated')" "$(said '' each)"
    same 'names may come again' "$(lines 'status 0' 'out: 1' 'out: 2')" "$(said '{"a":1,"a":2}' each)"
    same 'with names' "$(lines 'status 0' 'out: {"name":"a b","value":[1,2]}' 'out: {"name":"\u0061\"","value":{}}')" \
        "$(said '{ "a b" : [ 1,2 ],"\\u0061\\"":{ } }' each --names)"
    same 'with names that come again' "$(lines 'status 0' 'out: {"name":"a","value":1}' 'out: {"name":"a","value":2}')" "$(said '{"a":1,"a":2}' each --names)"
    same 'with names, of an object without members' 'status 0' "$(said '{ }' each --names)"
    same 'with names, of an array' "$(lines 'status 1' "err: jx: -: '': not an object at token 0")" "$(said '[1]' each --names)"
    same 'with names, of a scalar' "$(lines 'status 1' "err: jx: -: '': not an object at token 0")" "$(said '1' each --names)"
    same 'with names, before the end' "$(lines 'status 1' 'out: {"name":"a","value":1}' 'err: jx: -: truncated')" "$(said '{"a":1,"b":2' each --names)"
    same 'with names, behind a comma' "$(lines 'status 1' 'out: {"name":"a","value":1}' 'err: jx: -: stopped at 7')" "$(said '{"a":1,2' each --names)"
    printf '[1,2]' >elements
    same 'of a file' "$(lines 1 2)" "$("$program" each --file elements)"
    same 'no such file' "$(lines 'jx: missing: cannot open: No such file or directory' 'status 2')" "$("$program" each --file missing 2>&1; echo "status $?")"
    same 'a folder' "$(lines 'jx: .: is a directory' 'status 2')" "$("$program" each --file . 2>&1; echo "status $?")"
}

a_pointer_leads_to_the_container() {
    printf '{"v": 1, "items": [1, {"a" : 2}], "o": {"x": [ ], "y": 3}, "a/b~c": ["s"], "\\u00e9": [0]}' >dump.json
    same 'an array' "$(lines 1 '{"a":2}')" "$("$program" each /items dump.json)"
    same 'an object' "$(lines '[]' 3)" "$("$program" each /o dump.json)"
    same 'an element of an array' 2 "$("$program" each /items/1 dump.json)"
    same 'an array without elements' '' "$("$program" each /o/x dump.json)"
    same 'escapes in a token' '"s"' "$("$program" each '/a~1b~0c' dump.json)"
    same 'escapes in a name' 0 "$("$program" each /é dump.json)"
    same 'the whole text' 5 "$("$program" each '' dump.json | wc -l)"
    same 'members with their names' "$(lines '{"name":"x","value":[]}' '{"name":"y","value":3}')" "$("$program" each --names /o dump.json)"
    same 'an array has no names' "$(lines 'jx: dump.json: /items: not an object at token 1' 'status 1')" "$("$program" each --names /items dump.json 2>&1; echo "status $?")"
    same 'no names of a member that is not there' "$(lines 'jx: dump.json: /none: no such member at token 0' 'status 1')" "$("$program" each --names /none dump.json 2>&1; echo "status $?")"
    same 'standard input' "$(lines 'status 0' 'out: 7')" "$(said '{"a":[7]}' each /a)"
    same 'the word - for standard input' "$(lines 'status 0' 'out: 7')" "$(said '{"a":[7]}' each /a -)"
    same 'a file of an option' "$(lines 1 '{"a":2}')" "$("$program" each /items --file dump.json)"
    same 'a file twice' 'status 2' "$("$program" each /items dump.json --file dump.json >/dev/null 2>&1; echo "status $?")"
    same 'a scalar' "$(lines 'jx: dump.json: /v: not a container at token 1' 'status 1')" "$("$program" each /v dump.json 2>&1; echo "status $?")"
    same 'a scalar on the way' "$(lines 'jx: dump.json: /v/x: not a container at token 1' 'status 1')" "$("$program" each /v/x dump.json 2>&1; echo "status $?")"
    same 'no such member' "$(lines 'jx: dump.json: /none: no such member at token 0' 'status 1')" "$("$program" each /none dump.json 2>&1; echo "status $?")"
    same 'past the end' "$(lines 'jx: dump.json: /items/2: past end at token 1' 'status 1')" "$("$program" each /items/2 dump.json 2>&1; echo "status $?")"
    same 'after the last' "$(lines 'jx: dump.json: /items/-: after last at token 1' 'status 1')" "$("$program" each /items/- dump.json 2>&1; echo "status $?")"
    same 'no index' "$(lines 'jx: dump.json: /items/01: not an index at token 1' 'status 1')" "$("$program" each /items/01 dump.json 2>&1; echo "status $?")"
    same 'a name that comes again' "$(lines 'status 1' 'out: 1' 'err: jx: -: /a: name repeated at token 0')" "$(said '{"a":[1],"b":[2],"a":[3]}' each /a)"
    same 'a fault behind the elements' "$(lines 'status 1' 'out: 1' 'err: jx: -: stopped at 9')" "$(said '{"a":[1] x' each /a)"
    same 'a fault before the container' "$(lines 'status 1' 'err: jx: -: stopped at 2')" "$(said '{ x"a":[1]}' each /a)"
    same 'a file and no pointer' "$(lines 'jx: dump.json: no slash: the first word is a pointer, and FILE the second' 'status 2')" "$("$program" each dump.json 2>&1; echo "status $?")"
    same 'a pointer with a bad escape' "$(lines 'jx: /~x: bad escape at 1: the first word is a pointer, and FILE the second' 'status 2')" "$("$program" each '/~x' dump.json 2>&1; echo "status $?")"
}

# WORDS | INPUT | what is said, its lines parted by bars.
names_and_counts() {
    cat <<'LINES'
keys | { "a b" : [1 ,{"c":2}],"\\u0061\\"," :{ },"":"x"} | status 0 | out: "a b" | out: "\u0061\"," | out: ""
keys | {"a":1,"b":2,"a":3} | status 0 | out: "a" | out: "b" | out: "a"
keys | { } | status 0
keys | {"\\ud800":1} | status 0 | out: "\ud800"
keys | [1] | status 1 | err: jx: -: '': not an object at token 0
keys | "{}" | status 1 | err: jx: -: '': not an object at token 0
keys | {"a":1,"b":2 | status 1 | out: "a" | err: jx: -: truncated
keys | {"a":1,2 | status 1 | out: "a" | err: jx: -: stopped at 7
keys | {"a":1} x | status 1 | out: "a" | err: jx: -: stopped at 8
keys --depth 1 | {"a":1,"b":[]} | status 1 | out: "a" | err: jx: -: too deep at 11
keys --ignore-bom | \xef\xbb\xbf{"a":1} | status 0 | out: "a"
keys | \xef\xbb\xbf{"a":1} | status 1 | err: jx: -: stopped at 0
keys /o | {"a":{"z":1},"o":{"x":[],"y":{"w":3}},"p":{"v":1}} | status 0 | out: "x" | out: "y"
keys /1/o | [{"o":{"x":1}},{"o":{"y":1}}] | status 0 | out: "y"
keys /a | {"a":[1]} | status 1 | err: jx: -: /a: not an object at token 1
keys /b | {"a":[1]} | status 1 | err: jx: -: /b: no such member at token 0
keys /a | {"a":{"x":1},"a":{"y":2}} | status 1 | out: "x" | err: jx: -: /a: name repeated at token 0
keys -r | { "a b" : [1 ,{"c":2}],"\\u0061\\"," :{ },"":"x","\\ud83d\\ude00\\/":0} | status 0 | out: a b | out: a", | out: | out: 😀/
keys --raw /o | {"o":{"a\\nb":1,"a":2}} | status 0 | out: a | out: b | out: a
keys -r | {"\\ud800":1,"a":2,"x\\udc00y":3} | status 1 | out: | out: a | out: | err: jx: -: '': half a surrogate pair in a name
keys -r /o | {"o":{"\\ud800":1},"o":{}} | status 1 | out: | err: jx: -: /o: half a surrogate pair in a name | err: jx: -: /o: name repeated at token 0
keys -r | {"\\ud800":1,"b":2 | status 1 | out: | err: jx: -: '': half a surrogate pair in a name | err: jx: -: truncated
keys -r | [1] | status 1 | err: jx: -: '': not an object at token 0
keys -r | {} | status 0
keys x | {} | status 2 | err: jx: x: no slash: the first word is a pointer, and FILE the second
count | [ ] | status 0 | out: 0
count | { } | status 0 | out: 0
count | [1,[2,3],{"a":4},"5,6" , "" ] | status 0 | out: 5
count | { "a":1,"b":[1,2],"a" : {"c":3}} | status 0 | out: 3
count | [[],[],[]] | status 0 | out: 3
count | "[1,2]" | status 1 | err: jx: -: '': not a container at token 0
count | 7 | status 1 | err: jx: -: '': not a container at token 0
count | [1,2 | status 1 | err: jx: -: truncated
count | [1,2] x | status 1 | err: jx: -: stopped at 6
count --depth 1 | [1,[]] | status 1 | err: jx: -: too deep at 3
count --ignore-bom | \xef\xbb\xbf[1] | status 0 | out: 1
count /o | {"a":[1],"o":{"x":[],"y":{"w":3}},"p":[1,2,3]} | status 0 | out: 2
count /1 | [1,[2,3,4]] | status 0 | out: 3
count /a/0 | {"a":[1]} | status 1 | err: jx: -: /a/0: not a container at token 2
count /b | {"a":[1]} | status 1 | err: jx: -: /b: no such member at token 0
count /a | {"a":[1],"a":[2,3]} | status 1 | err: jx: -: /a: name repeated at token 0
count /~x | [] | status 2 | err: jx: /~x: bad escape at 1: the first word is a pointer, and FILE the second
LINES
}

names_and_counts_are_those_of_the_container() {
    local words input told
    while IFS='|' read -r words input told; do
        # shellcheck disable=SC2086
        same "jx $words of $input" "$(sed 's/^ //; s/ | /\n/g; s/^out:$/out: /Mg' <<<"$told")" "$(input=${input# }; said "${input% }" ${words})"
    done < <(names_and_counts)
    printf '{"o":{"b":1,"a":[1,2,3]}}' >object
    same 'names in a file' "$(lines '"b"' '"a"')" "$("$program" keys /o object)"
    same 'the number of elements in a file' 3 "$("$program" count --file object /o/a)"
    same 'names in no file' "$(lines 'jx: missing: cannot open: No such file or directory' 'status 2')" "$("$program" keys '' missing 2>&1; echo "status $?")"
    same 'a number in no file' "$(lines 'jx: missing: cannot open: No such file or directory' 'status 2')" "$("$program" count '' missing 2>&1; echo "status $?")"
    python3 -c 'print("{%s}" % ",".join("\"n%d\" : [{\"x\":[%d]}, \"]\"]" % (n, n) for n in range(300000)))' >members
    python3 -c 'print("".join("\"n%d\"\n" % n for n in range(300000)), end="")' >wanted
    for words in 1 4; do
        "$program" keys --workers $words --file members >got
        same "many names, by $words workers" same "$(cmp -s wanted got && echo same)"
        same "the texts of many names, by $words workers" same "$("$program" keys -r --workers $words --file members | cmp -s <(tr -d '"' <wanted) && echo same)"
        same "many members, by $words workers" 300000 "$("$program" count --workers $words --file members)"
    done
    if [ -w /dev/full ]; then
        same 'nowhere to write names to' "$(lines 'jx: write failed: No space left on device' 'status 2')" "$("$program" keys <members 2>&1 >/dev/full; echo "status $?")"
        same 'nowhere to write a number to' "$(lines 'jx: write failed: No space left on device' 'status 2')" "$("$program" count <members 2>&1 >/dev/full; echo "status $?")"
    fi
}

# A line is there before the input ends.
lines_come_while_the_input_is_read() {
    local first
    first=$( (printf '[{"n": 1}, {"n"'; sleep 2; printf ':2}]') | "$program" each | (IFS= read -r -t 1.5 line && echo "$line"; cat >/dev/null))
    same 'a line before the input ends' '{"n":1}' "$first"
    first=$( (printf '{"n": 1, "m"'; sleep 2; printf ':2}') | "$program" keys | (IFS= read -r -t 1.5 line && echo "$line"; cat >/dev/null))
    same 'a name before the input ends' '"n"' "$first"
}

# Commas, white space, escapes and brackets at each place of 64 bytes, in strings and outside.
elements_end_at_any_place_of_a_block() {
    python3 -c '
items = []
for n in range(140):
    word, deep = "x" * (n % 70), n % 67
    items += [("\"" + word + ", \\\" ,\\\\\"",) * 2, ("{\"" + word + "\" :[" + "[1 ],\n" * deep + "[ ]]}", "{\"" + word + "\":[" + "[1]," * deep + "[]]}")]
    items += [("\"\"",) * 2, ("\",\"",) * 2, ("1",) * 2] * (n % 71) + [("[" * deep + "]" * deep + " ", "[" * deep + "]" * deep)] * min(deep, 1)
open("cut", "w").write("[" + ",".join(item for item, _ in items) + "]")
open("wanted", "w").write("".join(line + "\n" for _, line in items))'
    "$program" each <cut >got
    same 'elements that end at any place' same "$(cmp -s wanted got && echo same)"
}

long_elements_and_many_are_written_whole() {
    python3 -c '
items = ["\"" + "y " * (n % 50) + "\\\\\"" for n in range(20000)] + ["[" + "1 , " * 300000 + "2 ]"]
open("blank", "w").write("[" + " ,\t".join(items) + "\r\n]\n")
open("wanted", "w").write("".join(item + "\n" for item in items[:-1]) + "[" + "1," * 300000 + "2]\n")'
    "$program" each <blank >got
    same 'many elements and a long one' same "$(cmp -s wanted got && echo same)"
    cat blank | "$program" each >got
    same 'the same from a pipe' same "$(cmp -s wanted got && echo same)"
    if [ -w /dev/full ]; then
        same 'nowhere to write to' "$(lines 'jx: write failed: No space left on device' 'status 2')" "$("$program" each <blank 2>&1 >/dev/full; echo "status $?")"
    fi
    status=$( (trap '' PIPE; "$program" each <blank 2>err; echo $? >status) | head -c 1 >/dev/null; cat status)
    same 'a reader of elements that goes away' 'status 2, told: ' "status $status, told: $(cat err)"
}

each_line_has_its_values() {
    same 'a line for each line' "$(lines 'status 0' 'out: 1' 'out: [2,3]')" "$(said '{"a":1}\n{"a" : [2 ,\r3] }\n' get --lines /a)"
    same 'a tab between the values, in the order of the pointers' "$(lines 'status 0' $'out: 2\t1' $'out: "\\u0061\\t"\t{}')" \
        "$(said '{"a":1,"b":2}\n{"a":{ },"b":"\\u0061\\t"}\n' get --lines /b /a)"
    same 'a value that is not there' "$(lines 'status 1' $'out: 1\t' $'out: \t2' 'err: jx: -: line 1: /b: no such member at token 0' \
        'err: jx: -: line 2: /a: no such member at token 0')" "$(said '{"a":1}\n{"b":2}\n' get --lines /a /b)"
    same 'a line that is no text' "$(lines 'status 1' 'out: 1' 'out: ' 'out: 3' 'err: jx: -: line 2: stopped at 5')" "$(said '{"a":1}\n{"a":}\n{"a":3}\n' get --lines /a)"
    same 'of several pointers' "$(lines 'status 1' $'out: \t\t' 'err: jx: -: line 1: truncated')" "$(said '[1\n' get --lines '' /0 /1)"
    same 'a line that is too deep' "$(lines 'status 1' 'out: ' 'out: 1' 'err: jx: -: line 1: too deep at 1')" "$(said '[[1]]\n[1]\n' get --lines --depth 1 /0)"
    same 'a name that comes again' "$(lines 'status 1' 'out: ' 'err: jx: -: line 1: /a: name repeated at token 0')" "$(said '{"a":1,"a":2}\n' get --lines /a)"
    same 'a blank line' "$(lines 'status 1' 'out: ' 'out: 1' 'err: jx: -: line 1: blank')" "$(said '\n{"a":1}\n' get --lines /a)"
    same 'a blank line that is passed' "$(lines 'status 0' $'out: \t' $'out: 1\t2')" "$(said ' \r\n{"a":1,"b":2}\n' get --lines --skip-blank /a /b)"
    same 'the last line may do without an end' "$(lines 'status 0' 'out: {"a":1}')" "$(said '{"a":1}' get --lines '')"
    same 'unless more of it may follow' "$(lines 'status 1' 'out: 1' 'out: ' 'err: jx: -: line 2: may be cut')" "$(said '1\n23' get --lines '')"
    same 'a mark in front of the first line alone' "$(lines 'status 1' 'out: 1' 'out: ' 'err: jx: -: line 2: stopped at 0')" \
        "$(said '\357\273\277[1]\n\357\273\277[2]\n' get --lines --ignore-bom /0)"
    same 'a mark that is refused' "$(lines 'status 1' 'out: ' 'err: jx: -: line 1: stopped at 0')" "$(said '\357\273\277[1]\n' get --lines /0)"
    same 'no line' 'status 0' "$(said '' get --lines /a)"
    same 'a word that is no pointer' "$(lines 'status 2' 'err: jx: a: no slash: a FILE stands behind --file')" "$(said '{"a":1}\n' get --lines /a a)"
    same 'a pointer with a bad escape' "$(lines 'status 2' 'err: jx: /~2: bad escape at 1')" "$(said '1\n' get --lines '/~2')"
    has 'not with texts of strings' "'--lines' cannot be used with '--raw'" "$(said '1\n' get --lines -r '')"
    has 'not with unique names' "'--lines' cannot be used with '--unique-names'" "$(said '1\n' get --lines --unique-names '')"
    has 'blank lines are passed of lines alone' 'required arguments' "$(said '1\n' get --skip-blank '')"
    rows_hold_texts
    printf '{"a":1}\n\n[2]' >log
    printf '\n/0\n' >list
    same 'of a file, and pointers of a file' "$(lines '1	{"a":1}	' '		' '	[2]	2')" "$("$program" get --lines /a --pointers list --file log 2>/dev/null)"
    same 'no such file' "$(lines 'jx: missing: cannot open: No such file or directory' 'status 2')" "$("$program" get --lines '' --file missing 2>&1; echo "status $?")"
    same 'a folder as standard input' "$(lines 'jx: -: read failed: Is a directory' 'status 2')" "$("$program" get --lines '' <. 2>&1; echo "status $?")"
}

# Rows of `--format`. The bytes that readers of tables need are written here by hand.
rows_hold_texts() {
    local text='{"a":"x\\t\\\\\\n,\\"","b":[1, "\\n"]}\n{"a":null,"b":""}\n{"a":"\\ud800","b":true}\n[\n'
    local told=('err: jx: -: line 3: /a: half a surrogate pair' 'err: jx: -: line 4: truncated')
    same 'rows by tabs' "$(lines 'status 1' 'out: x\t\\\n,"'$'\t''[1,"\\n"]' 'out: \N'$'\t' 'out: \N'$'\t''true' 'out: \N'$'\t''\N' "${told[@]}")" \
        "$(said "$text" get --lines --format tsv /a /b)"
    same 'rows by commas' "$(lines 'status 1' 'out: "x'$'\t''\' 'out: ,""","[1,""\n""]"' 'out: ,""' 'out: ,true' 'out: ,' "${told[@]}")" \
        "$(said "$text" get --lines --format csv /a /b)"
    same 'another word for no value, and a string that is it' "$(lines 'status 0' 'out: -,"-"' 'out: "",b')" \
        "$(said '{"a":null,"b":"-"}\n{"a":"","b":"b"}\n' get --lines --format csv --null - /a /b)"
    same 'a header, also of no line' "$(lines 'status 0' 'out: "/a,b",""')" "$(said '' get --lines --format csv --header /a,b '')"
    same 'a header before the rows' "$(lines 'status 0' $'out: /a\\tb\t/c' $'out: 1\t2')" "$(said '{"a\\tb":1,"c":2}\n' get --lines --format tsv --header /a$'\t'b /c)"
    has 'a form is of lines' 'required arguments' "$(said '1\n' get --format csv '')"
    has 'a header is of a form' '--format <FORMAT>' "$(said '1\n' get --lines --header '')"
    has 'no other form' "invalid value 'xml' for '--format <FORMAT>'" "$(said '1\n' get --lines --format xml '')"
    has 'a word that would end a cell' "invalid value for '--null <WORD>': WORD has a tab, a comma, a quotation mark or a line end" \
        "$(said '1\n' get --lines --format csv --null , '')"
}

# The values of a line are there, and what is told of it, before the input goes on.
values_of_lines_come_while_the_input_is_read() {
    printf '{"a":1}\n' >log
    (timeout 3 tail -n +1 -f log 2>/dev/null | "$program" get --lines /a >told 2>lacking) &
    sleep 0.5
    printf '{"b":2}\n{"a"' >>log
    sleep 1
    same 'values of a log that grows' "$(lines 1 '')" "$(cat told)"
    same 'what is missing of it' 'jx: -: line 2: /a: no such member at token 0' "$(cat lacking)"
    printf ':3}\n' >>log
    sleep 0.7
    same 'a line that goes on' "$(lines 1 '' 3)" "$(cat told)"
    wait
}

values_of_lines_that_cannot_be_written_or_told() {
    local status
    yes '{"a":[1, 2]}' | head -n 200000 >many
    same 'many lines' 200000 "$("$program" get --lines /a --file many | grep -cx '\[1,2\]')"
    if [ -w /dev/full ]; then
        same 'nowhere to write to' "$(lines 'jx: write failed: No space left on device' 'status 2')" "$("$program" get --lines /a --file many 2>&1 >/dev/full; echo "status $?")"
        same 'nowhere to tell to' "$(lines '' 1 'status 1')" "$(printf '{}\n{"a":1}\n' | "$program" get --lines /a 2>/dev/full; echo "status $?")"
    fi
    status=$( (trap '' PIPE; "$program" get --lines /a --file many 2>err; echo $? >status) | head -c 1 >/dev/null; cat status)
    same 'a reader of values of lines that goes away' 'status 2, told: ' "status $status, told: $(cat err)"
}

# The program gets no signal, as where what calls it ignores it.
a_closed_pipe_ends_it_without_a_word() {
    local status
    status=$( (trap '' PIPE; "$program" get '' '' '' <text 2>err; echo $? >status) | head -c 1 >/dev/null; cat status)
    same 'a reader that goes away' 'status 2, told: ' "status $status, told: $(cat err)"
    status=$( ("$program" get '' '' '' <text 2>err; echo $? >status) | head -c 1 >/dev/null; cat status)
    same 'a reader that goes away, with no signal ignored' 'status 2, told: ' "status $status, told: $(cat err)"
}

tests values_are_those_that_pointers_lead_to \
    values_of_lines_are_those_that_pointers_lead_to \
    each_line_has_its_values \
    values_of_lines_come_while_the_input_is_read \
    values_of_lines_that_cannot_be_written_or_told \
    each_pointer_has_its_line \
    compact_values_are_one_line \
    strings_are_written_as_texts \
    pointers_are_lines_of_a_file \
    long_values_are_written_whole \
    one_value_is_kept_while_a_text_is_read \
    values_by_an_index \
    what_cannot_be_written_or_told \
    each_element_has_its_line \
    elements_are_one_for_all_workers \
    a_pointer_leads_to_the_container \
    names_and_counts_are_those_of_the_container \
    lines_come_while_the_input_is_read \
    elements_end_at_any_place_of_a_block \
    long_elements_and_many_are_written_whole \
    a_closed_pipe_ends_it_without_a_word
