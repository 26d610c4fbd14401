#!/usr/bin/env bash
# Parts of a container by a saved index: `jx split` tells those that split.py does, which is written from RFC 8259 alone, and what is wrong is told.
. "$(dirname "$0")/lib.sh"
# Another one each day; JX_SEED plays one again.
seed=${JX_SEED:-$(date +%Y%m%d)}

# lines LINE..: each on a line of its own.
lines() { printf '%s\n' "$@"; }

# parted WORD..: what the parts of a container come to.
parted() { said '' split --index "$@"; }

parts_are_those_of_a_reader() {
    python3 "$root/tests/split.py" "$seed" 400 >answers
    same "parts of texts of seed $seed" '' "$(grep -v ' passed, ' answers | head -n 20 | cut -c 1-600)"
    same 'each text has four answers or more' yes "$([ "$(tail -n 1 answers | cut -d ' ' -f 1)" -ge 1600 ] && echo yes)"
}

parts_are_told() {
    printf ' [ 1 , [2,3] , {"a":1,"b":2} ] ' >three.json
    "$program" save three.json >three.jxi
    local three=(three.jxi --file three.json --parts)
    same 'one part' "$(lines 'status 0' 'out: 2..29 0..3')" "$(parted "${three[@]}" 1)"
    same 'three parts, of which one is empty' "$(lines 'status 0' 'out: 2..13 0..2' 'out: 14..29 2..3')" "$(parted "${three[@]}" 3)"
    same 'more parts than children' "$(lines 'status 0' 'out: 2..5 0..1' 'out: 6..13 1..2' 'out: 14..29 2..3')" "$(parted "${three[@]}" 65536)"
    same 'members' "$(lines 'status 0' 'out: 16..21 0..1' 'out: 22..27 1..2')" "$(parted "${three[@]}" 4 /2)"
    same 'no container' "$(lines 'status 1' 'err: jx: three.json: /2/a: not a container at token 2')" "$(parted "${three[@]}" 2 /2/a)"
    same 'no such member' "$(lines 'status 1' 'err: jx: three.json: /2/c: no such member at token 1')" "$(parted "${three[@]}" 2 /2/c)"
    same 'no pointer' "$(lines 'status 1' 'err: jx: three.json: x: no slash')" "$(parted "${three[@]}" 2 x)"
    printf '{"a":[ ],"b":[7]}' >empty.json
    "$program" save empty.json >empty.jxi
    same 'no child, no line' 'status 0' "$(parted empty.jxi --file empty.json --parts 9 /a)"
    same 'one child' "$(lines 'status 0' 'out: 14..15 0..1')" "$(parted empty.jxi --file empty.json --parts 9 /b)"
}

faults_are_told() {
    printf '[1,{"a":"b"}]' >two.json
    "$program" save two.json >two.jxi
    printf '[1,{"a":"c"}]' >changed.json
    same 'a changed text' "$(lines 'status 2' 'err: jx: changed.json: changed in 0..13')" "$(parted two.jxi --file changed.json --parts 2)"
    same 'another size' "$(lines 'status 2' 'err: jx: three.json: 31 bytes, and the index is of 13')" "$(parted two.jxi --file three.json --parts 2)"
    same 'no index' "$(lines 'status 2' 'err: jx: two.json: not a saved index')" "$(parted two.json --file two.json --parts 2)"
    same 'a missing index' "$(lines 'status 2' 'err: jx: missing.jxi: cannot open: No such file or directory')" "$(parted missing.jxi --file two.json --parts 2)"
    same 'a missing text' "$(lines 'status 2' 'err: jx: missing.json: cannot open: No such file or directory')" "$(parted two.jxi --file missing.json --parts 2)"
    if [ -w /dev/full ]; then
        same 'nowhere to write to' "$(lines 'jx: write failed: No space left on device' 'status 2')" "$("$program" split --index two.jxi --file two.json --parts 2 2>&1 >/dev/full; echo "status $?")"
        same 'nowhere to tell to' 'status 1' "$("$program" split --index two.jxi --file two.json --parts 2 /9 2>/dev/full; echo "status $?")"
    fi
}

echo "split.sh: the seed is $seed"
tests \
    parts_are_those_of_a_reader \
    parts_are_told \
    faults_are_told
