#!/usr/bin/env bash
# The layout of the sources: `rt fmt` has nothing to change. The gate refuses a crate for one line that is out of it, an hour into its run.
. "$(dirname "$0")/lib.sh"

rattle=$(dirname "$(readlink -f "$(command -v rt)")")/rattle

# unformatted FOLDER: the sources of the crates below it that are not in the layout, and those that cannot be read.
unformatted() {
    find "$1"/crates/*/src "$1"/crates/*/specs "$1"/crates/*/proofs \( -name '*.rt' -o -name '*.antt' \) -print0 2>/dev/null |
        xargs -0 -r -P "$(nproc)" -n 400 "$rattle" fmt --check 2>&1 >/dev/null | sort
}

all_sources_are_in_the_layout() {
    same 'the toolchain has a formatter' yes "$([ -x "$rattle" ] && echo yes)"
    same 'rt fmt has nothing to change' '' "$(unformatted "$root")"
}

# place_source CRATE: puts a source of a crate into a checkout of its own.
place_source() {
    mkdir -p "wrong/crates/$1/src"
    cp "$root/crates/$1/src/lib.rt" "wrong/crates/$1/src/lib.rt"
}

what_is_out_of_the_layout_is_named() {
    place_source jx_ends
    place_source jx_fork
    same 'both as they are' '' "$(unformatted wrong)"
    sed -i '$a\\n\n\n' wrong/crates/jx_fork/src/lib.rt
    has 'lines that are too many' 'jx_fork/src/lib.rt is not in the layout' "$(unformatted wrong)"
    printf 'fn broken( {\n' >wrong/crates/jx_ends/src/lib.rt
    has 'a source that cannot be read' 'jx_ends/src/lib.rt' "$(unformatted wrong)"
}

tests all_sources_are_in_the_layout \
    what_is_out_of_the_layout_is_named
