#!/usr/bin/env bash
# Documents from outside: random edits, and those that are hard, beside checks of the same bytes; and the memory of documents
# and of indexes.
. "$(dirname "$0")/lib.sh"

python=python3
if [ -x /usr/bin/python3 ] && /usr/bin/python3 -c 'import ctypes' 2>/dev/null; then python=/usr/bin/python3; fi
export PYTHONPATH=$root/bindings/python PYTHONDONTWRITEBYTECODE=1 PYTHONFAULTHANDLER=1

edits_come_to_what_a_check_of_the_bytes_tells() {
    local said last
    said=$("$python" "$root/tests/documents.py" 2>&1)
    same 'documents.py ends well' 0 $?
    last=${said##*$'\n'}
    if [[ $last =~ ([0-9]+)\ passed,\ ([0-9]+)\ failed ]]; then
        passed=$((passed + BASH_REMATCH[1]))
        failed=$((failed + BASH_REMATCH[2]))
    fi
    if [[ ! $last =~ \ 0\ failed$ ]]; then echo "${said: -3000}"; fi
}

# A sanitizer does not look into the library, which is linked as it is; this does.
no_call_reads_or_leaves_memory_that_it_should_not() {
    local said name
    if ! command -v valgrind >/dev/null || ! command -v gcc >/dev/null; then
        echo 'documents.sh: skipped: there is no valgrind, or no gcc'
        return
    fi
    for name in documents indexes; do
        said=$(gcc -std=c11 -O1 -g -Wl,--wrap=malloc,--wrap=realloc -I"$root/include" "$root/tests/c/$name.c" -L"$root/crates/jx_c/out" \
            -ljx -o "$name" 2>&1 && valgrind -q --error-exitcode=9 --leak-check=full --errors-for-leak-kinds=all "./$name" 2>&1)
        same "$name.c ends well under valgrind" 0 $?
        has "$name.c under valgrind" ' passed, 0 failed' "${said##*$'\n'}"
    done
}

if "$root/tools/library" >built 2>&1; then
    tests edits_come_to_what_a_check_of_the_bytes_tells \
        no_call_reads_or_leaves_memory_that_it_should_not
else
    same 'the library is built' '' "$(cat built)"
    tests
fi
