#!/usr/bin/env bash
# What ./jx does where the program is not built yet, over a toolchain that only pretends to prove and build.
. "$(dirname "$0")/lib.sh"

clone=$room/clone

# make_clone: a repository of four crates and the program, which stands on three of them; of these, two stand on the third.
make_clone() {
    local crate
    mkdir -p "$clone"/crates/{low,left,right,jx,jx_lsp,other}/src
    cp -R "$root/jx" "$root/tools" "$clone"
    printf '%s\n' '# programs: one' 'jx: left right' '' 'jx_lsp: left' '# libraries' 'left: low' 'other: low' 'right may_wait=1: low kit' 'low: kit' '# jx: other' >"$clone/crates.txt"
    for crate in low left right jx jx_lsp other; do touch "$clone/crates/$crate/src/lib.rt"; done
    weigh 10 10
}

# weigh LEFT RIGHT: the weights of the two neighbours
weigh() { printf '%s\n' '# seconds' 'low 1' "left $1" "right $2" >"$clone/tools/weights.txt"; }

# make_rt: `rt lib` notes when it begins and ends, and leaves what a check leaves; `rt run` makes a program. In between both wait until the
# command $UNTIL succeeds, for a minute at most. How many jobs they get and how nice they are stands in a log of its own.
make_rt() {
    mkdir bin
    cat >bin/rt <<'RT'
#!/bin/sh
name=${PWD##*/}
jobs=$(echo "$*" | sed -n 's/.* --jobs \([0-9]*\).*/\1/p')
echo "$name $jobs $(nice)" >>"$LOG.jobs"
echo "begin $name $(echo "$*" | sed 's/ --jobs [0-9]*//')" >>"$LOG"
if [ "$name" = "$BROKEN" ]; then
    echo "error: $name is wrong"
    exit 1
fi
turns=600
until eval "$UNTIL" || [ $turns = 0 ]; do
    turns=$((turns - 1))
    sleep 0.1
done
case $1 in
lib)
    for below in $(sed -n "s/^$name[^:]*: //p" ../../crates.txt); do
        [ -e "../$below/out/rlib/stamp" ] || [ "$below" = kit ] || exit 1
    done
    mkdir -p out/rlib out/incremental
    touch out/rlib/stamp out/incremental/"$name.oantt"
    ;;
run)
    mkdir -p out
    printf '#!/bin/sh\necho "ran $*"\nexit 1\n' >"out/$name"
    chmod +x "out/$name"
    ;;
esac
echo "end $name" >>"$LOG"
RT
    chmod +x bin/rt
}

# use WORD..: what ./jx prints, and its status
use() {
    local status=0
    : >"$LOG"
    : >"$LOG.jobs"
    "$clone/jx" "$@" >out 2>err || status=$?
    echo "status $status"
}

the_first_use_tells_how_far_it_is() {
    local crate
    # Each of the two neighbours goes on when both have begun.
    UNTIL='case $name in left | right) [ "$(grep -cE "^begin (left|right) " "$LOG")" = 2 ] ;; esac'
    same 'the first use: the status is the program'\''s' 'status 1' "$(use check x)"
    UNTIL=
    same 'the first use: standard output is the program'\''s' 'ran check x' "$(cat out)"
    has 'the first use: it says at once that it builds' 'jx: proves and builds the program for the first time here' "$(head -1 err)"
    for crate in low left right; do
        same "the first use: a line for $crate" 1 "$(grep -cE "^jx: proved $crate in [0-9]+ s, from [0-9]+ s on(, behind low)?; [1-3] of 4$" err)"
    done
    same 'the first use: a line for jx' 1 "$(grep -cE '^jx: proved and built jx in [0-9]+ s, from [0-9]+ s on, behind (left|right); 4 of 4$' err)"
    same 'the first use: the crates that waited for one another' 1 "$(grep -cE '^jx: the longest chain: low [0-9]+ s, (left|right) [0-9]+ s, jx [0-9]+ s$' err)"
    same 'the first use: no other line' 6 "$(wc -l <err)"
}

the_first_use_proves_what_the_program_stands_on() {
    same 'the first use: what the program does not stand on is not proved' 0 "$(grep -c other "$LOG")"
    same 'the first use: each is proved once' 4 "$(grep -c begin "$LOG")"
    same 'the first use: the lowest comes first' 'begin low lib' "$(head -1 "$LOG")"
    same 'the first use: neighbours side by side' 'begin begin end end' "$(grep -E 'left|right' "$LOG" | cut -d' ' -f1 | flat)"
    same 'the first use: what was proved is kept' yes "$([ -e "$clone/crates/left/out/rlib/stamp" ] && echo yes)"
    same 'the first use: nothing is left over' '' "$(ls -d "$clone/jx.rooms" 2>/dev/null)"
}

a_later_use_proves_nothing() {
    same 'a later use' 'status 1' "$(use seq)"
    same 'a later use: nothing is printed' '' "$(cat err)"
    same 'a later use: nothing is proved' '' "$(cat "$LOG")"
    ln -s clone/jx linked
    same 'a later use, by a link' 'ran check' "$("$room/linked" check)"
}

a_change_elsewhere_proves_nothing() {
    sleep 1
    touch "$clone/crates/other/src/lib.rt"
    same 'a change of what the program does not stand on' 'status 1' "$(use check)"
    same 'that proves nothing' '' "$(cat "$LOG")"
}

a_change_proves_what_changed_and_the_program() {
    touch "$clone/crates/right/src/lib.rt"
    same 'a change' 'status 1' "$(use check)"
    has 'a change: how long it took last' 'jx: proves and builds the program; the last build took ' "$(head -1 err)"
    has 'a change: how much that was' ' s for 4 crates on ' "$(head -1 err)"
    same 'a change: what changed is proved, and the program' 'begin right lib
begin jx run -- check' "$(grep begin "$LOG")"
}

# order: the crates in the order in which their checks began
order() { sed -n 's/^begin \([a-z_]*\) .*/\1/p' "$LOG" | flat; }

the_longest_chain_comes_first() {
    sleep 1
    touch "$clone/crates/low/src/lib.rt"
    weigh 10 200
    JX_CHECKS=1 use check >said
    same 'one check at a time, right is long' 'low right left jx' "$(order)"
    touch "$clone/crates/low/src/lib.rt"
    weigh 200 10
    JX_CHECKS=1 use check >said
    same 'one check at a time, left is long' 'low left right jx' "$(order)"
}

# more A B: whether the check of A got at least as many jobs as that of B, and was less nice.
more() {
    awk -v a="$1" -v b="$2" '{ jobs[$1] = $2; nice[$1] = $3 }
        END { print (jobs[a] >= jobs[b] ? "jobs" : "fewer jobs than " b), (nice[a] < nice[b] ? "first" : "not before " b) }' "$LOG.jobs"
}

the_longest_chain_gets_the_machine() {
    sleep 1
    touch "$clone/crates/low/src/lib.rt"
    weigh 10 200
    JX_CHECKS=2 use check >said
    same 'two checks at a time' 'jobs first' "$(more right left)"
}

a_build_that_is_stopped_leaves_what_it_proved() {
    local building
    sleep 1
    touch "$clone/crates/low/src/lib.rt"
    : >"$LOG"
    rm -rf "$clone/crates/left/out/incremental"
    UNTIL='case $name in left | right) mkdir -p out/incremental && touch out/incremental/half && false ;; esac'
    JX_CHECKS=2 "$clone/tools/build" 2>err &
    building=$!
    for _ in $(seq 100); do
        if [ "$(grep -cE '^begin (left|right) ' "$LOG")" = 2 ]; then break; fi
        sleep 0.1
    done
    sleep 0.5
    kill -TERM $building
    wait $building
    same 'a build that is stopped: status' 2 $?
    UNTIL=
    same 'a build that is stopped: its last line' 'jx: stopped; what is proved until now is kept' "$(tail -1 err)"
    same 'a build that is stopped: nothing is left over' '' "$(ls -d "$clone/jx.rooms" 2>/dev/null)"
    same 'a build that is stopped: what a check had proved is kept' yes "$([ -e "$clone/crates/left/out/incremental/half" ] && echo yes)"
    same 'the next one goes on' 'status 1' "$(use check)"
    same 'the next one proves what was not proved' 'jx left right' "$(order | tr ' ' '\n' | sort | flat)"
}

several_are_built_in_one_build() {
    sleep 1
    touch "$clone/crates/low/src/lib.rt"
    : >"$LOG"
    "$clone/tools/build" jx jx_lsp 2>err
    same 'two programs: status' 0 $?
    same 'two programs: each crate is proved once' 'jx jx_lsp left low right' "$(order | tr ' ' '\n' | sort | flat)"
    has 'two programs: what is built' 'proves and builds the program and the language server; the last build took ' "$(head -1 err)"
    same 'two programs: both are there' 'ran --version' "$("$clone/crates/jx_lsp/out/jx_lsp" --version)"
    : >"$LOG"
    "$clone/tools/build" jx_lsp jx 2>err
    same 'two programs once more: nothing is proved' '' "$(cat "$LOG" err)"
    "$clone/tools/build" other 2>err
    same 'what is no program: status' 2 $?
    has 'what is no program: usage' 'usage: tools/build [TOP]..' "$(cat err)"
}

measured_seconds_become_weights() {
    weigh 10 10
    printf '%s\n' '7 4 2' 'left 77' >"$clone/jx.last"
    "$clone/tools/build" --weigh
    same 'weights as measured here, and else as they were' '# seconds
left 77
right 10
low 1' "$(cat "$clone/tools/weights.txt")"
    weigh 10 10
}

one_of_two_calls_builds_and_the_other_waits() {
    local first second
    sleep 1
    touch "$clone/crates/low/src/lib.rt"
    : >"$LOG"
    UNTIL="cat '$room/err.1' '$room/err.2' | grep -q 'another call'"
    "$clone/jx" check >out.1 2>err.1 &
    first=$!
    "$clone/jx" check >out.2 2>err.2 &
    second=$!
    wait $first
    wait $second
    UNTIL=
    same 'two calls at once: one builds' 4 "$(grep -c begin "$LOG")"
    same 'two calls at once: one waits' 1 "$(cat err.1 err.2 | grep -c 'another call is building')"
    same 'two calls at once: both run' 'ran check ran check' "$(cat out.1 out.2 | flat)"
}

what_is_not_proved_is_told() {
    sleep 1
    touch "$clone/crates/low/src/lib.rt"
    BROKEN=left
    same 'a crate that is not proved' 'status 2' "$(use check)"
    has 'a crate that is not proved: why' 'error: left is wrong' "$(cat err)"
    same 'a crate that is not proved: which' 'jx: cannot build: left is not proved' "$(tail -1 err)"
    same 'a crate that is not proved: no output' '' "$(cat out)"
    BROKEN=jx
    same 'a program that is not proved' 'status 2' "$(use check)"
    same 'a program that is not proved: which' 'jx: cannot build: jx is not proved' "$(tail -1 err)"
    BROKEN=
    same 'mended' 'status 1' "$(use check)"
}

a_missing_linker_is_told() {
    sleep 1
    touch "$clone/crates/low/src/lib.rt"
    mkdir -p kit/bin kit/toolchain/bin
    cp bin/rt kit/bin/rt
    touch kit/bin/rattle
    chmod +x kit/bin/rattle
    PATH=$room/kit/bin:$tools
    same 'no linker' 'status 2' "$(use check)"
    same 'no linker: one line' "jx: cannot build: there is no linker: $room/kit/bin/rattle-link is not there" "$(cat err)"
    cp bin/rt kit/bin/rattle-link
    cp bin/rt kit/toolchain/bin/ld.lld
    same 'no compiler' 'status 2' "$(use check)"
    same 'no compiler: one line' "jx: cannot build: there is no compiler: $room/kit/toolchain/bin/clang is not there" "$(cat err)"
    same 'a missing tool: nothing is proved' '' "$(cat "$LOG")"
}

a_missing_rt_is_told() {
    local tool
    mkdir plain
    for tool in sh dirname readlink flock cat; do ln -s "$(command -v $tool)" "plain/$tool"; done
    PATH=$room/plain
    same 'no rt' 'status 2' "$(use check)"
    PATH=$tools
    same 'no rt: one line' 'jx: cannot build: the command rt is not on the PATH (README.md, "Build and test")' "$(cat err)"
}

make_clone
make_rt
# So many checks at once, whatever this machine has.
export LOG=$room/log BROKEN= UNTIL= JX_CHECKS=2
tools=$PATH
PATH=$room/bin:$PATH
tests the_first_use_tells_how_far_it_is \
    the_first_use_proves_what_the_program_stands_on \
    a_later_use_proves_nothing \
    a_change_elsewhere_proves_nothing \
    a_change_proves_what_changed_and_the_program \
    the_longest_chain_comes_first \
    the_longest_chain_gets_the_machine \
    a_build_that_is_stopped_leaves_what_it_proved \
    several_are_built_in_one_build \
    measured_seconds_become_weights \
    one_of_two_calls_builds_and_the_other_waits \
    what_is_not_proved_is_told \
    a_missing_linker_is_told \
    a_missing_rt_is_told
