#!/usr/bin/env bash
# What tools/wrong_bodies makes of what a check says, over a toolchain that only pretends to check.
. "$(dirname "$0")/lib.sh"

clone=$room/clone

# make_clone: a repository of a crate with four functions, one of which calls another, and of one that it stands on.
make_clone() {
    mkdir -p "$clone/crates/low/src" "$clone/crates/base/src" "$clone/tests/wrong_bodies/low" "$clone/docs"
    cp -R "$root/tools" "$clone"
    printf '%s\n' 'base:' 'low: base' >"$clone/crates.txt"
    cat >"$clone/crates/base/src/lib.rt" <<'RT'
/// Zero.
pub fn zero() -> u8
    ensures { result ≡ 0 }
{
    0
}
RT
    cat >"$clone/crates/low/src/lib.rt" <<'RT'
pub fn first(x: u8) -> u8 {
    x + 1
}

pub fn second(x: u8) -> u8 {
    first(x) + 2
}

impl Third for Number {
    fn third(&self) -> u8 {
        self.x + 3
    }
}

pub const TABLE: [u8; 2] = [4, 5];
RT
}

# body NAME OLD NEW
body() { printf '%s\n' 'file: src/lib.rt' "old: $2" "new: $3" >"$clone/tests/wrong_bodies/low/$1.edit"; }

# make_rt: a check that refuses a 9, does not read a letter y, and says of a caller that its callee is not proved.
make_rt() {
    mkdir bin
    cat >bin/rt <<'RT'
#!/bin/sh
echo "$*" >>"$LOG"
mkdir -p out/rlib out/incremental
touch out/rlib/stamp
if [ "$1" = lib ]; then exit 0; fi
if grep -q y src/lib.rt; then
    echo "src/lib.rt:$(grep -n y src/lib.rt | cut -d: -f1):5: error[unknown-name]: there is no \`y\`"
    exit 1
fi
logic=proved
# judge NAME WRONG CALLEE: the line of a function, where it is asked for
judge() {
    said=proved
    if grep -q "$2" src/lib.rt; then
        echo 'note: src/lib.rt:1:1: it is not proved that what the function ensures holds'
        said='not proved'
    fi
    if [ -n "$3" ] && grep -q 'x + 9$' src/lib.rt; then said="no proof: it calls \`$3\`, which is not proved"; fi
    if [ "$said" != proved ]; then logic=not-proved; fi
    case " $asked " in
    '  ' | *" low::$1 "*) echo "fn low::$1: $said" ;;
    esac
}
asked=$(echo "$*" | sed 's/check --jobs 1//; s/--only//g')
judge first '^    x + 9$' ''
judge second 'first(x) + 9' low::first
judge NumberThird::third 'self.x + 9' ''
if grep -q '\[9' src/lib.rt; then
    echo 'fn low::first: not proved'
    logic=not-proved
fi
if [ -n "$asked" ]; then echo 'only=2 proved=1'; else echo "logic=$logic"; fi
[ $logic = proved ]
RT
    chmod +x bin/rt
}

tried() {
    : >"$LOG"
    "$clone/tools/wrong_bodies" "$@" 2>err
    echo "status $?"
}

bodies_are_judged_each_in_its_function() {
    body a_first '    x + 1' '    x + 9'
    body b_second_calls_first 'first(x) + 2' 'first(x) + 9'
    body c_table '[4, 5]' '[9, 5]'
    body d_third 'self.x + 3' 'self.x + 9'
    tried >said
    same 'all are refused' '4 passed, 0 failed
status 0' "$(tail -n 2 said)"
    same 'each of a function has a line' 3 "$(grep -c '^low/[a-d]_[a-z_]*: refused: ' said)"
    same 'and what is no function' 'low/c_table: refused (by a check of the crate): fn low::first: not proved' "$(grep c_table said)"
    has 'how many were refused where' ' 4 3 1 0' "$(grep '^low ' "$clone/tests/wrong_bodies/passed.txt")"
    same 'why' 'low/d_third: refused: note: src/lib.rt:1:1: it is not proved that what the function ensures holds' "$(grep d_third said)"
    same 'one check for those of different functions, one for the caller, one for what is no function' '== low: 4 wrong bodies in 3 checks' "$(grep '^==' said)"
    same 'only what is changed is checked' 'check --jobs 1 --only low::second' "$(tail -n 1 "$LOG")"
    same 'the sources are as they were' 0 "$(grep -c 9 "$clone/crates/low/src/lib.rt")"
    same 'nothing is left over' '' "$(ls -d "$clone/jx.rooms" 2>/dev/null)"
}

how_many_were_refused_where_stands_in_a_table() {
    local head='| Crate | Wrong bodies | Refused in the functions that they change | Refused otherwise | May stay |'
    printf '%s\n' 'Before.' '' "$head" '| old | 1 |' '' 'Behind.' >"$clone/docs/EVIDENCE.md"
    same 'the table' "$head
|---|---:|---:|---:|---:|
| \`low\` | 4 | 3 | 1 |  |
| all 1 | 4 | 3 | 1 |  |" "$("$clone/tools/wrong_bodies" --table)"
    "$clone/tools/wrong_bodies" --table renew
    same 'it is put in its place' "Before.

$("$clone/tools/wrong_bodies" --table)

Behind." "$(cat "$clone/docs/EVIDENCE.md")"
}

what_passed_is_noted_until_the_crate_changes() {
    local noted='wrong bodies beside the gate: 4 in 1 crates; last passed as the crates are now: in 1'
    has 'they passed' "$noted" "$("$clone/tools/wrong_bodies" --passed)"
    same 'what was judged is not tried again' '== low: 4 wrong bodies in 0 checks
4 passed, 0 failed' "$(tried | grep -e '^==' -e passed,)"
    same 'nothing has changed' '0 passed, 0 failed' "$("$clone/tools/wrong_bodies" --changed | tail -n 1)"
    sed -i 's/^    0$/    1 - 1/; s/Zero/The number 0/' "$clone/crates/base/src/lib.rt"
    has 'how a crate below does what it states is no change' "$noted" "$("$clone/tools/wrong_bodies" --passed)"
    sed -i 's/result ≡ 0/result ≤ 1/' "$clone/crates/base/src/lib.rt"
    has 'what it states is one' 'low: at ' "$("$clone/tools/wrong_bodies" --passed)"
    sed -i 's/result ≤ 1/result ≡ 0/' "$clone/crates/base/src/lib.rt"
    has 'as it was' "$noted" "$("$clone/tools/wrong_bodies" --passed)"
    echo '// more' >>"$clone/crates/low/src/lib.rt"
    has 'a change' 'low: at ' "$("$clone/tools/wrong_bodies" --passed)"
    has 'a change is told' ', and was changed since' "$("$clone/tools/wrong_bodies" --passed)"
    same 'what has changed is tried' '4 passed, 0 failed' "$("$clone/tools/wrong_bodies" --changed | tail -n 1)"
}

what_is_not_refused_fails() {
    body e_stays 'self.x + 3' 'self.x + 4'
    body f_misspelled '    x + 1' '    y + 1'
    body g_gone 'no such text' 'x'
    tried >said
    same 'three are not refused' '4 passed, 3 failed
status 1' "$(tail -n 2 said)"
    same 'one is still proved' 'low/e_stays: STAYS' "$(grep e_stays said)"
    has 'one cannot be read' 'low/f_misspelled: UNREADABLE: src/lib.rt:2:5: error[unknown-name]' "$(grep f_misspelled said)"
    has 'one has no place' 'low/g_gone: UNREADABLE: its text stands in src/lib.rt 0 times' "$(grep g_gone said)"
    same 'the others are refused all the same' 4 "$(grep -c ': refused' said)"
    same 'read alone' '6 passed, 1 failed' "$("$clone/tools/wrong_bodies" --read | tail -n 1)"
}

a_crate_that_is_not_proved_judges_nothing() {
    sed -i 's/self.x + 3/self.x + 9/' "$clone/crates/low/src/lib.rt"
    rm "$clone"/tests/wrong_bodies/low/[d-g]_* "$clone/crates/low/out/verdicts"
    tried >said
    same 'a crate that is not proved' '0 passed, 3 failed
status 1' "$(tail -n 2 said)"
    has 'a crate that is not proved: why' 'low/a_first: NOT TRIED: the crate is not proved as it stands' "$(grep a_first said)"
}

rows_are_judged_as_files_are() {
    sed -i 's/self.x + 9/self.x + 3/' "$clone/crates/low/src/lib.rt"
    mkdir "$clone/tests/plants"
    cat >"$clone/tests/plants/low" <<'ROWS'
breaks: the first is nine
file: src/lib.rt
old:     x + 1
new:     x + 9

breaks: the third is four
file: src/lib.rt
old: self.x + 3
new: self.x + 4
stays: nobody asks for it
ROWS
    "$clone/tools/plant" >said 2>err
    same 'two rows: status' 0 $?
    same 'one is refused, one may stay' 'low/the first is nine: refused: note: src/lib.rt:1:1: it is not proved that what the function ensures holds
low/the third is four: stays, and may: nobody asks for it
2 passed, 0 failed' "$(tail -n 3 said)"
    same 'both in one check' '== low: 2 wrong bodies in 1 checks' "$(grep '^==' said)"
    tried --both >said
    same 'rows and files together, but for those that were judged' '== low: 5 wrong bodies in 2 checks
5 passed, 0 failed' "$(grep -e '^==' -e passed, said)"
    same 'each is noted with its kind' ' 3 2 1 0
 2 1 0 1' "$(sed -n 's/^low .*\( [0-9]* [0-9]* [0-9]* [0-9]*\)$/\1/p' "$clone/tests/wrong_bodies/passed.txt" "$clone/tests/plants/passed.txt")"
    printf '%s\n' 'breaks: one is zero' 'file: src/lib.rt' 'old:     1 - 1' 'new:     0' >"$clone/tests/plants/base"
    same 'a crate that passes is noted beside one that fails' 'base/one is zero: STAYS
low' "$(rm "$clone/tests/plants/passed.txt"; "$clone/tools/plant" 2>err | grep STAYS; sed -n 's/^\(low\|base\) .*/\1/p' "$clone/tests/plants/passed.txt")"
    rm "$clone/tests/plants/base"
    has 'they passed' 'rows of wrong bodies: 2 in 1 crates; last passed as the crates are now: in 1' "$("$clone/tools/plant" --passed)"
    sed -i 's/^stays: .*//' "$clone/tests/plants/low"
    has 'a row that stays' 'low/the third is four: STAYS' "$("$clone/tools/plant" 2>/dev/null)"
    sed -i 's/^new: self.x + 4/new: self.x + 9\nstays: it was so/' "$clone/tests/plants/low"
    same 'a row that is said to stay' '1 passed, 1 failed' "$("$clone/tools/plant" 2>/dev/null | tail -n 1)"
    sed -i 's/^old: self.x + 3/old: no such text/' "$clone/tests/plants/low"
    same 'read alone' '1 passed, 1 failed' "$("$clone/tools/plant" --read | tail -n 1)"
    rm -r "$clone/tests/plants"
}

a_wrong_word_is_a_fault() {
    same 'no such crate' 'status 2' "$(tried high)"
    has 'no such crate: help' 'tools/wrong_bodies [CRATE..]' "$(cat err)"
}

make_clone
make_rt
export LOG=$room/log JX_CHECKS=1
PATH=$room/bin:$PATH
tests bodies_are_judged_each_in_its_function \
    how_many_were_refused_where_stands_in_a_table \
    what_passed_is_noted_until_the_crate_changes \
    what_is_not_refused_fails \
    a_crate_that_is_not_proved_judges_nothing \
    rows_are_judged_as_files_are \
    a_wrong_word_is_a_fault
