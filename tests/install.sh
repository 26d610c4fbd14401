#!/usr/bin/env bash
# ./install puts the program, its manual page and its completions below a prefix, and takes them away again.
. "$(dirname "$0")/lib.sh"

clone="$room/a clone"
prefix=$room/home/.local
places='lib/libjx.a lib/libjx.so.0 lib/libjx.so include/jx.h lib/pkgconfig/jx.pc bin/jx bin/jx-lsp
share/man/man1/jx.1 share/man/man1/jx-lsp.1 share/bash-completion/completions/jx
share/zsh/site-functions/_jx share/fish/vendor_completions.d/jx.fish'

# copy_clone: a copy of what ./install reads, built by now as it says itself.
copy_clone() {
    mkdir -p "$clone/crates/jx/src" "$clone/crates/jx/out"
    mkdir -p "$clone/crates/jx_c/src" "$clone/crates/jx_c/out"
    cp -R "$root/install" "$root/jx" "$root/tools" "$root/jx.1" "$root/jx-lsp.1" "$root/completions" "$root/crates.txt" "$root/include" "$root/jx.pc" "$clone"
    cp "$program" "$clone/crates/jx/out/jx"
    mkdir -p "$clone/crates/jx_lsp/src" "$clone/crates/jx_lsp/out"
    if [ -e "$root/crates/jx_lsp/out/jx_lsp" ]; then
        cp "$root/crates/jx_lsp/out/jx_lsp" "$clone/crates/jx_lsp/out/jx_lsp"
    else
        cp "$program" "$clone/crates/jx_lsp/out/jx_lsp"
    fi
    if [ -e "$root/crates/jx_c/out/libjx.a" ]; then
        cp "$root/crates/jx_c/out/libjx.a" "$clone/crates/jx_c/out/libjx.a"
    else
        echo 'no library' >"$clone/crates/jx_c/out/libjx.a"
    fi
    if [ -e "$root/crates/jx_c/out/libjx.so.0" ]; then
        cp "$root/crates/jx_c/out/libjx.so.0" "$clone/crates/jx_c/out/libjx.so.0"
    else
        echo 'no library' >"$clone/crates/jx_c/out/libjx.so.0"
    fi
    touch "$clone/jx.stamp" "$clone/jx.library.stamp" "$clone/jx.server.stamp"
}

it_installs_all_that_it_says() {
    local said place
    mkdir home
    said=$(HOME=$room/home "$clone/install" 2>&1)
    same 'it installs: status' 0 $?
    for place in $places; do
        has "it says that it put $place" "put $prefix/$place" "$said"
        same "$place is there" yes "$([ -s "$prefix/$place" ] && echo yes)"
    done
    has 'a folder that is not on the PATH' "$prefix/bin is not on the PATH" "$said"
    if command -v pkg-config >/dev/null; then
        has 'a folder that pkg-config does not know' "export PKG_CONFIG_PATH='$prefix/lib/pkgconfig'\"\${PKG_CONFIG_PATH:+:\$PKG_CONFIG_PATH}\"" "$said"
    fi
    has 'a folder that the loader does not know' "export LD_LIBRARY_PATH='$prefix/lib'\"\${LD_LIBRARY_PATH:+:\$LD_LIBRARY_PATH}\"" "$said"
    same 'its line keeps what was there' "$prefix/lib:/nowhere" "$(export LD_LIBRARY_PATH=/nowhere; eval "$(grep -o 'export LD_LIBRARY_PATH=.*' <<<"$said")"; echo "$LD_LIBRARY_PATH")"
    same 'and adds no empty folder' "$prefix/lib" "$(unset LD_LIBRARY_PATH; eval "$(grep -o 'export LD_LIBRARY_PATH=.*' <<<"$said")"; echo "$LD_LIBRARY_PATH")"
    same 'the library for development' libjx.so.0 "$(readlink "$prefix/lib/libjx.so")"
    same 'nothing else is there' 11 "$(find home -type f | wc -l)"
}

what_is_known_is_not_told() {
    local said
    said=$(HOME=$room/home PATH=$prefix/bin:$PATH PKG_CONFIG_PATH=$prefix/lib/pkgconfig LD_LIBRARY_PATH=/nowhere:$prefix/lib "$clone/install" 2>&1)
    same 'all places are known' '' "$(grep -v '^put ' <<<"$said")"
}

the_installed_program_needs_nothing_of_the_clone() {
    rm -rf "$clone.moved"
    mv "$clone" "$clone.moved"
    same 'the installed program runs' accepted "$(printf null | env -i "$prefix/bin/jx" check)"
    same 'the installed program needs the C library alone' 'libc.so.6' \
        "$(readelf -d "$prefix/bin/jx" | sed -n 's/.*(NEEDED).*\[\(.*\)\]/\1/p')"
    if command -v man >/dev/null; then
        has 'the installed page is found' 'jx at [OPTIONS] [POINTER]...' "$(MANPATH=$prefix/share/man MANWIDTH=79 man jx 2>&1 | col -bx)"
    fi
    mv "$clone.moved" "$clone"
}

it_uninstalls_all_that_it_installed() {
    local said place
    said=$(HOME=$room/home "$clone/install" --uninstall 2>&1)
    same 'it uninstalls: status' 0 $?
    for place in $places; do
        has "it says that it removed $place" "removed $prefix/$place" "$said"
    done
    same 'nothing is left' 0 "$(find home -type f -o -type l | wc -l)"
    same 'nothing to take away' '' "$(HOME=$room/home "$clone/install" --uninstall 2>&1)"
}

another_prefix_may_be_named() {
    "$clone/install" "$room/other place" >/dev/null
    same 'another prefix' accepted "$(printf null | "$room/other place/bin/jx" check)"
    "$clone/install" --uninstall "$room/other place" >/dev/null
    same 'another prefix, uninstalled' 0 "$(find "$room/other place" -type f | wc -l)"
}

what_is_not_built_is_built_in_one_build() {
    local other="$room/another clone"
    cp -a "$clone" "$other"
    # A build that notes what it is asked for, and takes it for built.
    printf '#!/bin/sh\necho "$@" >>"%s"\necho "jx: proved a crate" >&2\ntouch "%s/jx.stamp" "%s/jx.server.stamp"\n' "$room/asked" "$other" "$other" >"$other/tools/build"
    rm "$other/jx.stamp" "$other/jx.server.stamp"
    "$other/install" "$room/third place" >/dev/null 2>said
    same 'what is not built: status' 0 $?
    same 'what is not built: one build of both programs' 'jx jx_lsp' "$(cat "$room/asked")"
    same 'what is not built: each crate is told' 'jx: proved a crate' "$(cat said)"
    "$other/install" "$room/third place" >/dev/null
    same 'what is built: no build' 1 "$(wc -l <"$room/asked")"
}

a_wrong_word_is_a_fault() {
    has 'a wrong word' 'usage: ./install' "$("$clone/install" --wrong 2>&1)"
    "$clone/install" --wrong 2>/dev/null
    same 'a wrong word: status' 2 $?
}

copy_clone
tests it_installs_all_that_it_says \
    what_is_known_is_not_told \
    the_installed_program_needs_nothing_of_the_clone \
    it_uninstalls_all_that_it_installed \
    another_prefix_may_be_named \
    what_is_not_built_is_built_in_one_build \
    a_wrong_word_is_a_fault
