#!/usr/bin/env bash
# The program in a stack of 56 KiB: each call answers there as it does elsewhere.
. "$(dirname "$0")/lib.sh"

# KiB of the stack, with what the system puts there. No variable of the environment is passed on. The kernel begins the stack at a random
# place within 8 KiB, so a limit that a call just needs is too small in some runs.
most=56

# INPUT | WORDS. The input is a file of this folder; behind `cat` it comes through a pipe.
calls() {
    cat <<'LINES'
none | --version
none | help
none | check --help
none | chek
none | help chek
none | check --depth x
good.json | check
good.json | check --unique-names
good.json | check --ignore-bom --quiet
none | check good.json bad.json - -
none | check -H --list good.json bad.json
none | check --format gnu good.json bad.json missing.json
none | check --format json good.json bad.json missing.json
deep.json | check --depth 65535
bad.json | check --format json
deep.json | check --format json
long.json | check
cat long.json | check
cat long.json | check --format json
none | check long.json
none | explain good.json bad.json
deep.json | explain
deep.json | explain --depth 65535 --color always
cat long.json | explain
good.json | index
deep.json | index --depth 65535
cat long.json | index --unique-names
good.json | at /a
good.json | at '' /a /b/1 /c
good.json | at --unique-names /b/1
long.json | at --pointers many
none | at --file good.json --index good.jxi /b/1 /a
good.json | get /b
good.json | get /b /a /c
good.json | get --raw --compact /a /b
none | get --file long.json --pointers many
none | get --file good.json --index good.jxi /b/1 /a
lines.jsonl | get --lines /n /m
none | each /b good.json
good.json | each --names
none | each --workers 4 '' long.json
seq.json-seq | seq
seq.json-seq | seq --live
seq.json-seq | seq --unique-names
cat long.json-seq | seq --quiet
lines.jsonl | lines
none | lines -H --format json lines.jsonl missing.jsonl
none | lines --format gnu lines.jsonl
cat long.jsonl | lines
none | lines long.jsonl
good.json | save
good.json | save --names --unique-names --chunk 64
none | split --file long.json --index long.jxi --parts 8
good.json | part --from 0
good.run | join
good.run | whole --to 30
LINES
}

make_inputs() {
    printf '{"a":"x","b":[1,{"c":[]},"\\u0061"]}' >good.json
    printf '{"a":"x",\n "b":[1,{"c":tru}]}' >bad.json
    python3 -c 'print("[" * 65535 + "1" + "]" * 65535, end="")' >deep.json
    python3 -c 'print("[" + ",".join("{\"n\":%d}" % n for n in range(1000000)) + "]", end="")' >long.json
    python3 -c 'for n in range(1000000): print("{\"n\":%d%s" % (n, "" if n % 100000 == 7 else "}"))' >long.jsonl
    sed 's/^/\x1e/' long.jsonl >long.json-seq
    for n in $(seq 0 9999); do echo "/$n/n"; done >many
    printf '{"n":1}\n{"n":\n\n2' >lines.jsonl
    printf '\036{"n":1}\n\036{"n":\n\0361' >seq.json-seq
    "$program" save good.json >good.jxi
    "$program" save long.json >long.jxi
    "$program" part --from 0 --file good.json >good.run
}

# answer KIB INPUT WORD..: what a call writes to both streams, as a checksum, and its status, in a stack of so many KiB or any.
answer() {
    local kib=$1 input=$2 status=0
    shift 2
    case $input in
    none) set -- "$program" "$@" ;;
    cat*) set -- sh -c 'cat "$1" | { shift; exec "$@"; }' sh "${input#cat }" "$program" "$@" ;;
    *) set -- sh -c 'input=$1; shift; exec "$@" <"$input"' sh "$input" "$program" "$@" ;;
    esac
    # A progress line has the time.
    (if [ "$kib" != any ]; then ulimit -s "$kib"; fi && exec -c "$@") >out 2>err </dev/null || status=$?
    tr '\r' '\n' <err | grep -v ' MB/s' >>out
    echo "status $status, $(cksum <out)"
}

each_call_answers_in_a_small_stack() {
    local input words count=0
    while IFS='|' read -r input words; do
        input=$(flat <<<"$input")
        eval "set -- $words"
        same "$input: jx $*" "$(answer any "$input" "$@")" "$(answer $most "$input" "$@")"
        count=$((count + 1))
    done < <(calls)
    same 'as many calls as there are lines' "$(calls | wc -l)" "$count"
}

# Else the limit is not one.
a_stack_is_limited() {
    same 'a stack of 8 KiB is too small' no "$(case $(answer 8 good.json check) in *'status 0,'*) echo yes ;; *) echo no ;; esac)"
}

make_inputs
tests each_call_answers_in_a_small_stack \
    a_stack_is_limited
