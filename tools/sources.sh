# Read by ./jx, ./install and tools/build, which set `root`: what the program is made of, and whether it is as old as that.
# Shell words alone, since this is asked at each start.
program=$root/crates/jx/out/jx
# Made when the last build began.
stamp=$root/jx.stamp

# The library that C links; its stamp is made when its last build begins.
library=$root/crates/jx_c/out/libjx.a
# The same for programs that load it as they start, or later.
shared_library=$root/crates/jx_c/out/libjx.so.0
library_stamp=$root/jx.library.stamp
# The module that the prover hands to its compiler, for the fuzzers, and the folder of a compiler that keeps it.
module=$root/fuzz/out/module.bc
keeper=$root/fuzz/out/keeper

# The language server.
server=$root/crates/jx_lsp/out/jx_lsp
server_stamp=$root/jx.server.stamp

# Sets `crates`: the crate, or jx, and all that crates.txt says that it stands on, each named once.
find_crates() {
    crates=" ${1-jx} "
    known=
    while [ "$crates" != "$known" ]; do
        known=$crates
        while IFS=: read -r above below; do
            # Behind a crate's name may stand words of its own.
            case $known in
            *" ${above%% *} "*) add_crates $below ;;
            esac
        done <"$root/crates.txt"
    done
}

add_crates() {
    for name in "$@"; do
        case $crates in
        *" $name "*) ;;
        *) if [ -d "$root/crates/$name" ]; then crates=" $name$crates"; fi ;;
        esac
    done
}

# Whether a source of the crate, or a folder of sources, is newer than a file.
is_newer() {
    for source in "$root/crates/$1/src" "$root/crates/$1"/src/* "$root/crates/$1"/src/*/* \
        "$root/crates/$1/specs" "$root/crates/$1"/specs/* \
        "$root/crates/$1/proofs" "$root/crates/$1"/proofs/* "$root/crates/$1"/proofs/*/* \
        "$root/crates/$1"/proofs/*/*/* "$root/crates/$1"/proofs/*/*/*/*; do
        if [ "$source" -nt "$2" ]; then return 0; fi
    done
    return 1
}

# Whether the program is there, and nothing that it is made of is newer.
is_built() { [ -x "$program" ] && is_fresh "$stamp"; }

# Whether the library is there, and nothing that it is made of is newer.
is_library_built() {
    [ -e "$library" ] && [ -e "$shared_library" ] && ! [ "$root/bindings/c/calls.c" -nt "$library_stamp" ] &&
        ! [ "$root/include/jx.h" -nt "$library_stamp" ] && is_fresh "$library_stamp"
}

# Whether the language server is there, and nothing that it is made of is newer.
is_server_built() { [ -x "$server" ] && is_fresh "$server_stamp"; }

# Whether no source of the crates is newer than the stamp.
is_fresh() {
    if [ ! -e "$1" ] || [ "$root/crates.txt" -nt "$1" ]; then return 1; fi
    for crate in $crates; do
        if is_newer "$crate" "$1"; then return 1; fi
    done
    return 0
}
