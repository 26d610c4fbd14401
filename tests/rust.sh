#!/usr/bin/env bash
# The crate for Rust: what clippy says of it, and where its build looks for the library.
. "$(dirname "$0")/lib.sh"

crate=$root/bindings/rust

# A library is an archive of that name. What is not linked may be empty.
make_library() { mkdir -p "$1" && printf '!<arch>\n' >"$1/libjx.a"; }

# built FOLDER [NAME=VALUE]..: cargo checks the crate that stands in a folder, with nothing in the environment but these.
built() {
    local folder=$1
    shift
    (cd "$folder" && env -u JX_LIB_DIR -u PKG_CONFIG_PATH CARGO_TARGET_DIR="$room/target" "$@" cargo check --offline --lib 2>&1)
}

# where: the folder that the last build linked with.
where() { sed -n 's/^cargo:rustc-link-search=native=//p' "$room"/target/debug/build/jx-*/output; }

clippy_says_nothing() {
    if ! cargo clippy --version >/dev/null 2>&1; then
        echo "${0##*/}: skipped: there is no clippy"
        return
    fi
    make_library library
    same 'cargo clippy with its defaults' '' "$(cd "$crate" && JX_LIB_DIR=$room/library CARGO_TARGET_DIR=$room/clippy \
        cargo clippy --offline --quiet --all-targets -- -W clippy::missing_errors_doc 2>&1)"
}

# A package of its own with the sample of README.md, which has the crate as README.md says.
clippy_says_nothing_of_the_sample() {
    if ! cargo clippy --version >/dev/null 2>&1; then return; fi
    cargo init --quiet --vcs none --name sample sample
    awk '/^    use jx::/ { here = 1 } here && /^[^ ]/ { exit } here { print substr($0, 5) }' "$root/README.md" >sample/src/main.rs
    same 'the sample is that of README.md' yes "$(grep -q 'fn main' sample/src/main.rs && echo yes)"
    same 'the sample, by clippy' '' "$(cd sample && export JX_LIB_DIR=$room/library CARGO_TARGET_DIR=$room/clippy && cargo add --quiet --offline --path "$crate" &&
        cargo clippy --offline --quiet 2>&1)"
}

# copy_crate FOLDER: the crate as a release has it.
copy_crate() {
    mkdir -p "$1"
    cp -R "$crate/Cargo.toml" "$crate/build.rs" "$crate/src" "$1"
    sed -i '/^\[\[test\]\]/,$d' "$1/Cargo.toml"
}

the_build_finds_the_library() {
    local home=$HOME
    export RUSTUP_HOME=${RUSTUP_HOME:-$home/.rustup} CARGO_HOME=${CARGO_HOME:-$home/.cargo}
    copy_crate "$room/release/bindings/rust"
    make_library named
    built release/bindings/rust JX_LIB_DIR="$room/named" >said
    same 'the folder of JX_LIB_DIR' "$room/named" "$(where)"
    make_library release/lib
    built release/bindings/rust >said
    same 'where a release is unpacked' "$room/release/bindings/rust/../../lib" "$(where)"
    rm -r release/lib
    make_library installed/lib
    mkdir installed/lib/pkgconfig
    cp "$root/jx.pc" installed/lib/pkgconfig
    if command -v pkg-config >/dev/null; then
        built release/bindings/rust PKG_CONFIG_PATH="$room/installed/lib/pkgconfig" >said
        same 'as pkg-config tells' "$(realpath installed/lib)" "$(realpath "$(where)")"
    fi
    make_library home/.local/lib
    built release/bindings/rust HOME="$room/home" >said
    same 'where ./install puts it' "$room/home/.local/lib" "$(where)"
}

the_build_says_where_there_is_none() {
    local said
    said=$(built release/bindings/rust JX_LIB_DIR="$room/nothing")
    same 'no library: status' yes "$([ $? != 0 ] && echo yes)"
    has 'no library: it says so' 'there is no libjx.a in any of these folders' "$said"
    has 'no library: where it looked' "    $room/nothing" "$said"
    has 'no library: what to do' 'set JX_LIB_DIR to the folder that has it' "$said"
}

if command -v cargo >/dev/null; then
    tests clippy_says_nothing \
        clippy_says_nothing_of_the_sample \
        the_build_finds_the_library \
        the_build_says_where_there_is_none
else
    echo 'rust.sh: skipped: there is no cargo'
    tests
fi
