#!/usr/bin/env bash
# A release: an archive and a Debian package, the same bytes each time, of which the program runs where they are unpacked.
. "$(dirname "$0")/lib.sh"

clone="$room/a clone"
version=$("$program" --version | sed 's/^jx //')

# copy_clone: a copy of what tools/release reads, built by now as it says itself.
copy_clone() {
    local page crate
    mkdir -p "$clone"/crates/{jx,jx_c,jx_lsp}/{src,out}
    cp -R "$root"/{install,jx,tools,jx.1,jx-lsp.1,completions,crates.txt,include,jx.pc,README.md,CHANGELOG.md,docs,.pre-commit-hooks.yaml} "$clone"
    for page in "$root"/crates/*/README.md; do
        crate=${page%/README.md}
        mkdir -p "$clone/crates/${crate##*/}"
        cp "$page" "$clone/crates/${crate##*/}"
    done
    mkdir "$clone/bindings"
    cp -R "$root/bindings/c" "$root/bindings/python" "$clone/bindings"
    mkdir "$clone/bindings/rust"
    cp -R "$root"/bindings/rust/{Cargo.toml,build.rs,src,examples} "$clone/bindings/rust"
    cp "$program" "$clone/crates/jx/out/jx"
    if [ -e "$root/crates/jx_lsp/out/jx_lsp" ]; then
        cp "$root/crates/jx_lsp/out/jx_lsp" "$clone/crates/jx_lsp/out/jx_lsp"
    else
        cp "$program" "$clone/crates/jx_lsp/out/jx_lsp"
    fi
    cp "$root"/crates/jx_c/out/libjx.{a,so.0} "$clone/crates/jx_c/out"
    touch "$clone/jx.stamp" "$clone/jx.library.stamp" "$clone/jx.server.stamp"
}

# broken_links FOLDER: each link of the pages in a folder that leads to no file there.
broken_links() {
    local page link
    while read -r page; do
        while read -r link; do
            if [ -n "${link%%#*}" ] && [ ! -e "${page%/*}/${link%%#*}" ]; then echo "$page: $link"; fi
        done < <(grep -o '](\([^)]*\))' "$page" | sed 's/^](//; s/)$//' | grep -v '^https\?:')
    done < <(find "$1" -name '*.md')
}

two_runs_make_the_same_bytes() {
    local said
    said=$("$clone/tools/release" "$room/one" 2>&1)
    same 'a release: status' 0 $?
    has 'it says what it made' "made $room/one/SHA256SUMS" "$said"
    sleep 1
    touch "$clone/crates/jx/out/jx"
    (umask 077 && "$clone/tools/release" "$room/two" >/dev/null)
    same 'three files' 3 "$(ls one | wc -l)"
    same 'the same bytes' '' "$(diff -r one two)"
    same 'their checksums' "$(cd one && sha256sum -- *.tar.gz *.deb)" "$(cat one/SHA256SUMS)"
}

the_archive_has_all_that_is_installed() {
    local place
    tar -xzf "one/jx-$version-x86_64-linux.tar.gz"
    for place in bin/jx bin/jx-lsp lib/libjx.a include/jx.h lib/pkgconfig/jx.pc share/man/man1/jx.1 share/man/man1/jx-lsp.1 share/bash-completion/completions/jx \
        share/zsh/site-functions/_jx share/fish/vendor_completions.d/jx.fish README.md CHANGELOG.md docs/PYTHON.md docs/EDITORS.md crates/jx_run/README.md bindings/rust/Cargo.toml \
        bindings/rust/src/lib.rs .pre-commit-hooks.yaml; do
        same "the archive has $place" yes "$([ -s "jx-$version-x86_64-linux/$place" ] && echo yes)"
    done
    same 'each link of the archive leads to a file' '' "$(broken_links "jx-$version-x86_64-linux")"
    same 'the program of the archive runs' accepted "$(printf null | env -i "$room/jx-$version-x86_64-linux/bin/jx" check)"
}

the_crate_of_the_archive_is_built() {
    if ! command -v cargo >/dev/null; then return; fi
    printf '{"a":[1,2]}' >values.json
    same 'the crate of the archive finds the library beside it' '2' "$(cd "$room/jx-$version-x86_64-linux/bindings/rust" &&
        printf '/a/1\n' | env -u JX_LIB_DIR CARGO_TARGET_DIR="$room/target" cargo run --offline --quiet --example values "$room/values.json" 2>/dev/null)"
}

the_wheel_of_the_archive_works() {
    "$python" -m zipfile -e "jx-$version-x86_64-linux"/dist/jx-*.whl wheel
    same 'the package of the wheel answers' 'STOPPED 3' "$(cd / && PYTHONPATH=$room/wheel PYTHONDONTWRITEBYTECODE=1 \
        "$python" -c 'import jx; found = jx.verdict(b"nulx"); print(found.kind.name, found.offset)' 2>&1)"
}

the_package_is_unpacked_and_its_program_runs() {
    local place
    dpkg-deb -x one/jx_*_amd64.deb unpacked
    for place in bin/jx bin/jx-lsp lib/libjx.a lib/libjx.so.0 lib/libjx.so include/jx.h share/pkgconfig/jx.pc share/man/man1/jx.1.gz \
        share/man/man1/jx-lsp.1.gz share/bash-completion/completions/jx share/zsh/vendor-completions/_jx \
        share/fish/vendor_completions.d/jx.fish share/doc/jx/README.md share/doc/jx/docs/PYTHON.md share/doc/jx/crates/jx_run/README.md share/doc/jx/copyright \
        share/doc/jx/changelog.gz share/jx/bindings/rust/Cargo.toml share/jx/pre-commit-hooks.yaml lib/python3/dist-packages/jx/__init__.py; do
        same "the package has $place" yes "$([ -s "unpacked/usr/$place" ] && echo yes)"
    done
    printf '[1,}' >bad.json
    same 'the program of the package runs' 'stopped at 3' "$(env -i "$room/unpacked/usr/bin/jx" check bad.json)"
    same 'the package says its version' "$("$program" --version)" "jx $(dpkg-deb -f one/jx_*_amd64.deb Version)"
    same 'the sums of its files' '' "$(dpkg-deb -e one/jx_*_amd64.deb control && cd unpacked && md5sum --quiet -c ../control/md5sums 2>&1)"
    same 'its files are nobody'"'"'s in particular' '' "$(dpkg-deb -c one/jx_*_amd64.deb | grep -v ' root/root ')"
    same 'each link of its pages leads to a file' '' "$(broken_links unpacked/usr/share/doc/jx)"
}

the_package_is_as_debian_wants_it() {
    local needs
    needs=$(dpkg-deb -f one/jx_*_amd64.deb Depends)
    has 'it depends on a version of the C library' 'libc6 (>= 2.' "$needs"
    has 'it depends on Python' 'python3 (>= 3.10)' "$needs"
    same 'its maintainer is no machine' 0 "$(dpkg-deb -f one/jx_*_amd64.deb Maintainer | grep -c localhost)"
    if ! command -v lintian >/dev/null; then
        echo "${0##*/}: skipped: there is no lintian"
        return
    fi
    # One package has the library, its header and the programs.
    same 'lintian finds no errors and warns of nothing else' '' "$(lintian --allow-root --fail-on error,warning \
        --suppress-tags package-name-doesnt-match-sonames,link-to-shared-library-in-wrong-package one/jx_*_amd64.deb 2>&1)"
}

python_finds_the_package() {
    local packages=$room/unpacked/usr/lib/python3/dist-packages
    same 'Python knows its version' "$version" \
        "$(PYTHONPATH=$packages "$python" -c 'from importlib.metadata import version; print(version("jx"))' 2>&1)"
    same 'it calls the library of the package' 'TRUNCATED 0' "$(cd / && PYTHONPATH=$packages LD_LIBRARY_PATH=$room/unpacked/usr/lib PYTHONDONTWRITEBYTECODE=1 \
        "$python" -c 'import jx; found = jx.verdict(b"["); print(found.kind.name, found.offset)' 2>&1)"
}

what_is_not_built_is_not_released() {
    touch -d '1 minute' "$clone/crates.txt"
    has 'sources that are newer' 'release: the program is not built' "$("$clone/tools/release" "$room/three" 2>&1)"
    same 'nothing is made' no "$([ -e three ] && echo yes || echo no)"
    has 'a wrong word' 'usage: tools/release' "$("$clone/tools/release" --wrong 2>&1)"
}

python=python3
if [ -x /usr/bin/python3 ] && /usr/bin/python3 -c 'import ctypes' 2>/dev/null; then python=/usr/bin/python3; fi
if ! command -v dpkg-deb >/dev/null; then
    echo 'release.sh: skipped: there is no dpkg-deb here'
    tests
elif ! "$root/tools/library" >built 2>&1; then
    same 'the library is built' '' "$(cat built)"
    tests
else
    copy_clone
    tests two_runs_make_the_same_bytes \
        the_archive_has_all_that_is_installed \
        the_crate_of_the_archive_is_built \
        the_wheel_of_the_archive_works \
        the_package_is_unpacked_and_its_program_runs \
        the_package_is_as_debian_wants_it \
        python_finds_the_package \
        what_is_not_built_is_not_released
fi
