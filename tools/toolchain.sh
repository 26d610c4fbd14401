# shellcheck shell=sh
# Read by tools/build and tools/library, which have `give_up`: what a build calls, looked for before anything is proved.

# Sets `rt`, and `kit`, the folder of the toolchain.
find_toolchain() {
    rt=$(command -v rt) || give_up 'the command rt is not on the PATH (README.md, "Build and test")'
    kit=$(readlink -f -- "$rt")
    kit=${kit%/bin/rt}
}

# The compiler and the linker are the toolchain's own. An `rt` that is no part of a toolchain's folder is taken at its word.
find_linker() {
    if [ ! -x "$kit/bin/rattle" ]; then return; fi
    for tool in "$kit/bin/rattle-link" "$kit/toolchain/bin/ld.lld"; do
        [ -x "$tool" ] || give_up "there is no linker: $tool is not there"
    done
    [ -x "$kit/toolchain/bin/clang" ] || give_up "there is no compiler: $kit/toolchain/bin/clang is not there"
}

# Sets `memory`, the toolchain's C functions for memory, and `ar`.
find_archiver() {
    memory=$kit/c/liblibc_c.a
    [ -e "$memory" ] || give_up "$memory is not there"
    for tool in ar llvm-ar "$kit/toolchain/bin/llvm-ar"; do
        if command -v "$tool" >/dev/null; then
            ar=$tool
            return
        fi
    done
    give_up 'there is no ar'
}
