#!/usr/bin/env bash
# Where the loops over a text's bytes stand in the program. Processors of the Skylake family decode a jump anew each time if it crosses a
# multiple of 32 bytes or ends there. The compiler aligns functions to 16 bytes, so any change in front of a loop decides anew which of its
# jumps are such: 4 to 7 of 100 that it takes where it begins at a multiple of 32, 24 to 29 where it begins 16 bytes behind one. There one
# worker takes up to 1.4 times as long. No answer depends on it: a bad place is told and fails nothing.
. "$(dirname "$0")/lib.sh"

# The loop of one worker that stands once: over characters beyond ASCII.
loops='jx_lex::scanner::ahead::Ahead::after'

# The loops over blocks where tokens stand close, over whole tokens and over single ones: one for each kind of reading.
kinds='jx_reduce::stack::blocks::blocks::<.*> jx_reduce::stack::whole_tokens::rounds::<.*> jx_lex::scanner::scan::<.*>'

# The addresses of a function, hexadecimal, a line each.
places() { nm "$program" | sed -n "s/^\([0-9a-f]*\) [tT] $1\$/\1/p"; }

each_loop_stands_once() {
    local loop
    for loop in $loops; do
        same "how often $loop stands in the program" 1 "$(places "$loop" | wc -l)"
    done
    for loop in $kinds; do
        same "$loop stands in the program" yes "$([ "$(places "$loop" | wc -l)" -gt 0 ] && echo yes)"
    done
}

their_places_are_told() {
    local loop at place
    for loop in $loops $kinds; do
        for at in $(places "$loop"); do
            place=$((16#$at % 32))
            if [ "$place" != 0 ]; then
                echo "hot_loop.sh: NOTE: $loop begins $place bytes behind a multiple of 32: one worker may be slow in this build"
            fi
            same "$loop begins where the compiler aligns functions" 0 "$((place % 16))"
        done
    done
}

tests each_loop_stands_once their_places_are_told
