#!/usr/bin/env bash
# The library for C: the table of texts and each beginning of them, from C with its memory watched, and from Rust.
. "$(dirname "$0")/lib.sh"

library=$root/crates/jx_c/out

# counts LINE: adds what a line 'NAME: N passed, M failed' tells.
counts() {
    if [[ $1 =~ ([0-9]+)\ passed[,\;]\ ([0-9]+)\ failed ]]; then
        passed=$((passed + BASH_REMATCH[1]))
        failed=$((failed + BASH_REMATCH[2]))
    else
        failed=$((failed + 1))
        echo "library.sh: FAILED: no count in: $1"
    fi
}

# c_program COMPILER NAME [TABLE]: compiles the program NAME.c and runs it over the table of texts, or over another.
c_program() {
    local compiler=$1 name=$2 table=${3-verdicts} wrapped= said status
    # All but the first refuse requests for memory.
    if [ "$name" != verdicts ]; then wrapped=-Wl,--wrap=malloc,--wrap=realloc; fi
    said=$("$compiler" -std=c11 -O1 -g -Wall -Wextra -Werror -fsanitize=address,undefined -fno-sanitize-recover=all \
        $wrapped -I"$root/include" "$root/tests/c/$name.c" -L"$library" -ljx -o "$name" 2>&1)
    same "$compiler compiles and links $name" '' "$said"
    said=$("./$name" "$root/tests/$table" 2>&1)
    status=$?
    same "$compiler: $name ends well" 0 "$status"
    counts "${said##*$'\n'}"
    if [ "$status" != 0 ]; then echo "${said:0:2000}"; fi
}

c_programs_come_to_what_the_table_says() {
    local compiler name is_compiled=
    for compiler in gcc clang; do
        if ! command -v "$compiler" >/dev/null; then
            echo "library.sh: skipped: there is no $compiler"
            continue
        fi
        is_compiled=yes
        for name in verdicts indexed indexes shelves finder values saved sequences lines settings documents runs compact; do
            c_program "$compiler" "$name"
        done
        c_program "$compiler" explain sentences
    done
    if [ -z "$is_compiled" ]; then echo 'library.sh: skipped: there is no C compiler'; fi
}

# By the sanitizer of threads, where the compiler has it: it tells whether two threads meet at what a program in C reads or writes.
threads_see_one_index() {
    local compiler said sanitizer status
    for compiler in gcc clang; do
        if ! command -v "$compiler" >/dev/null; then continue; fi
        sanitizer=-fsanitize=thread
        printf 'int main(void) { return 0; }\n' >empty.c
        if ! "$compiler" $sanitizer empty.c -o empty 2>/dev/null || ! ./empty; then
            echo "library.sh: skipped: the sanitizer of threads of $compiler"
            sanitizer=
        fi
        # shellcheck disable=SC2086
        said=$("$compiler" -std=c11 -O1 -g -pthread -Wall -Wextra -Werror $sanitizer -I"$root/include" "$root/tests/c/threads.c" -L"$library" -ljx -o threads 2>&1)
        same "$compiler compiles and links threads" '' "$said"
        said=$(./threads 2>&1)
        status=$?
        same "$compiler: threads ends well" 0 "$status"
        counts "${said##*$'\n'}"
        if [ "$status" != 0 ]; then echo "${said:0:2000}"; fi
    done
}

# With no sanitizer, as a caller has it: these take stack of their own.
no_call_takes_more_of_the_stack() {
    local compiler said status
    for compiler in gcc clang; do
        if ! command -v "$compiler" >/dev/null; then continue; fi
        said=$("$compiler" -std=c11 -O1 -g -pthread -Wall -Wextra -Werror -I"$root/include" "$root/tests/c/stack.c" -L"$library" -ljx -o stack 2>&1)
        same "$compiler compiles and links stack" '' "$said"
        said=$(./stack 2>&1)
        status=$?
        same "$compiler: stack ends well" 0 "$status"
        counts "${said##*$'\n'}"
        if [ "$status" != 0 ]; then echo "${said:0:2000}"; fi
    done
}

c_plus_plus_takes_the_header() {
    if command -v g++ >/dev/null; then
        printf '#include "jx.h"\nint main() { jx_verdict v; return (int)jx_check((const uint8_t *)"1", 1, NULL, &v); }\n' >check.cc
        same 'C++17 takes the header' '' "$(g++ -std=c++17 -Wall -Wextra -Werror -I"$root/include" check.cc -L"$library" -ljx -o check 2>&1)"
        ./check
        same 'C++17 calls it' 0 $?
    else
        echo 'library.sh: skipped: there is no g++'
    fi
}

the_tests_of_the_rust_binding_pass() {
    local said line
    if command -v cargo >/dev/null; then
        said=$(cd "$root/bindings/rust" && CARGO_TARGET_DIR=$room/target cargo test --offline 2>&1)
        same 'cargo test ends well' 0 $?
        while read -r line; do counts "$line"; done < <(grep '^test result:' <<<"$said")
        if ! grep -q '^test result:' <<<"$said" || grep -q FAILED <<<"$said"; then echo "${said: -2000}"; fi
    else
        echo 'library.sh: skipped: there is no cargo'
    fi
}

# Languages that read no header look names up in the shared library.
each_call_is_a_symbol() {
    local name said
    said=$(nm -D --defined-only "$library/libjx.so.0" | sed 's/.* //')
    while read -r name; do
        same "the shared library exports $name" 1 "$(grep -cx "$name" <<<"$said")"
    done < <(grep -oE '^(static inline )?(uint32_t |void |const char \*)jx_[a-z_]+\(' "$root/include/jx.h" | sed 's/.*[ *]//; s/($//')
    same 'it exports nothing else' '' "$(grep -v '^jx_' <<<"$said")"
    if command -v python3 >/dev/null; then
        same 'a call by its name alone answers null pointers' '0 0 10' "$(python3 - "$library/libjx.so.0" <<'PYTHON'
import ctypes, sys
library = ctypes.CDLL(sys.argv[1])
verdict = (ctypes.c_size_t * 2)()
print(library.jx_check(b"null", ctypes.c_size_t(4), None, verdict), verdict[1], library.jx_index_row(None, ctypes.c_size_t(0), None))
PYTHON
        )"
    fi
}

# By the names in jx.h, and by numbers that no status has.
each_status_has_its_name() {
    if ! command -v python3 >/dev/null; then return; fi
    same 'jx_status_name' '' "$(python3 - "$library/libjx.so.0" "$root/include/jx.h" 2>&1 <<'PYTHON'
import ctypes, re, sys
name_of = ctypes.CDLL(sys.argv[1]).jx_status_name
name_of.restype = ctypes.c_char_p
with open(sys.argv[2]) as header:
    statuses = re.search(r"/\* Statuses\. \*/\nenum \{(.*?)\n\};", header.read(), re.S).group(1)
names = {int(number): name for name, number in re.findall(r"(JX_\w+) = (\d+)", statuses)}
if len(names) < 35:
    print("jx.h has", len(names), "statuses")
for number in [*range(64), 2**32 - 1]:
    told = name_of(ctypes.c_uint32(number)).decode()
    if told != names.get(number, "?"):
        print(number, "is", told)
PYTHON
    )"
}

# The program of README, compiled by the line that README prints, once what ./install says is exported.
the_program_of_readme_prints_what_it_says() {
    local said line shared
    if ! command -v pkg-config >/dev/null || ! command -v cc >/dev/null; then
        echo 'library.sh: skipped: there is no pkg-config, or no C compiler'
        return
    fi
    mkdir -p prefix/lib/pkgconfig prefix/include
    cp "$library/libjx.a" "$library/libjx.so.0" prefix/lib
    ln -s libjx.so.0 prefix/lib/libjx.so
    cp "$root/jx.pc" prefix/lib/pkgconfig
    cp "$root/include/jx.h" prefix/include
    export PKG_CONFIG_PATH=$room/prefix/lib/pkgconfig
    awk '/^    #include <jx.h>/ { inside = 1 } /^$/ { inside = 0 } inside { print substr($0, 5) }' "$root/README.md" >first.c
    line=$(sed -n 's/^`\(cc first\.c [^`]*\)` makes a program.*/\1/p' "$root/README.md")
    has 'README: the line of the compiler' 'pkg-config --cflags --libs jx' "$line"
    same 'README: it compiles' '' "$(eval "$line" 2>&1)"
    same 'README: it prints' 'kind 2 at 0' "$(env -u LD_LIBRARY_PATH ./a.out)"
    has 'README: how the shared library is named' '`pkg-config --variable=shared jx`' "$(cat "$root/README.md")"
    shared=$(pkg-config --variable=shared jx)
    # shellcheck disable=SC2046,SC2086
    same 'the shared library: it compiles' '' "$(cc first.c $(pkg-config --cflags jx) $shared -o loaded 2>&1)"
    same 'the shared library: it prints' 'kind 2 at 0' "$(LD_LIBRARY_PATH=$room/prefix/lib ./loaded)"
    has 'the shared library: it is loaded' 'libjx.so.0' "$(readelf -d loaded)"
}

the_versions_are_the_same() {
    same 'the version of the program is that of the library' "$(sed -n 's/^Version: //p' "$root/jx.pc")" "$("$program" --version | sed 's/^jx //')"
}

# Without a library there is nothing else to test; a compiler may be missing.
if "$root/tools/library" >built 2>&1; then
    tests c_programs_come_to_what_the_table_says \
        threads_see_one_index \
        no_call_takes_more_of_the_stack \
        c_plus_plus_takes_the_header \
        the_tests_of_the_rust_binding_pass \
        each_call_is_a_symbol \
        each_status_has_its_name \
        the_program_of_readme_prints_what_it_says \
        the_versions_are_the_same
else
    same 'the library is built' '' "$(cat built)"
    tests
fi
