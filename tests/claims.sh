#!/usr/bin/env bash
# What help, manual page and docs say of workers, memory and sizes. Each line names a page, its sentence, a call, and what the call
# makes of it: how many threads, how much memory at its peak in KiB, how many bytes its reads gave, how many bytes of output. So a sentence
# that is no longer so fails, and so does one that has gone. With the word `sentences` it only looks whether they are there, which needs no program.
. "$(dirname "$0")/lib.sh"

# PAGE | SENTENCE | WHAT LEAST MOST | INPUT | WORDS. A `-` has no bound; `auto` is one thread for each processor that may be used here. An
# input is a text, lines or elements of so many bytes; behind `cat` it comes through a pipe.
claims() {
    cat <<'LINES'
README.md | Use N workers, auto or 1 to 64. Default: auto, of `each`, `keys`, `count` and `save` 1. | threads auto auto | text.20000000 | check
README.md | Use N workers, auto or 1 to 64. Default: auto, of `each`, `keys`, `count` and `save` 1. | threads auto - | text.20000000 | explain
README.md | Use N workers, auto or 1 to 64. Default: auto, of `each`, `keys`, `count` and `save` 1. | threads auto - | text.1200000 | at --pointers many
README.md | Use N workers, auto or 1 to 64. Default: auto, of `each`, `keys`, `count` and `save` 1. | threads auto - | text.1200000 | get --pointers many
README.md | Use N workers, auto or 1 to 64. Default: auto, of `each`, `keys`, `count` and `save` 1. | threads auto - | seq.20000000 | seq -q
README.md | Use N workers, auto or 1 to 64. Default: auto, of `each`, `keys`, `count` and `save` 1. | threads auto auto | lines.1200000 | lines -q
README.md | Use N workers, auto or 1 to 64. Default: auto, of `each`, `keys`, `count` and `save` 1. | threads 0 0 | text.20000000 | each
README.md | Use N workers, auto or 1 to 64. Default: auto, of `each`, `keys`, `count` and `save` 1. | threads 0 0 | text.20000000 | save
jx.1 | auto: one for each processor that jx may use, at most 16. | threads auto auto | text.20000000 | check --workers auto
jx.1 | auto: one for each processor that jx may use, at most 16. | threads auto - | text.20000000 | each --workers auto
README.md | an index to keep beside a text, 0.075 % of its size | output 14800 15200 | text.20000000 | save
jx.1 | Of one FILE each worker reads chunks of 256 KiB for itself, and one alone the first MiB. | threads 0 0 | text.1000000 | check --workers 4
jx.1 | Of one FILE each worker reads chunks of 256 KiB for itself, and one alone the first MiB. | threads 1 - | text.20000000 | check --workers 4
jx.1 | Of one FILE each worker reads chunks of 256 KiB for itself, and one alone the first MiB. | given 20000000 21000000 | text.20000000 | check --workers 4
docs/DECISIONS.md | Chunks of a file have 256 KiB, or the size that `--piece` gives, up to 8 MiB | memory - 60000 | text.60000000 | check --workers 4 --piece 1000000000
jx.1 | So their workers share an input of some 5.25 MiB or more. | threads 0 0 | cat text.5505023 | check --workers 4
jx.1 | So their workers share an input of some 5.25 MiB or more. | threads 4 4 | cat text.5505024 | check --workers 4
jx.1 | So workers share such an input of some 5.25 MiB or more. | threads 0 0 | cat seq.5500000 | seq --workers 4 -q
jx.1 | So workers share such an input of some 5.25 MiB or more. | threads 4 4 | cat seq.5510000 | seq --workers 4 -q
jx.1 | Of one FILE each worker reads chunks of 256 KiB for itself, from a MiB on. | threads 0 0 | seq.1000000 | seq --workers 4 -q
jx.1 | Of one FILE each worker reads chunks of 256 KiB for itself, from a MiB on. | threads 4 - | seq.5510000 | seq --workers 4 -q
jx.1 | Of one FILE each worker reads chunks of 256 KiB for itself, from a MiB on. | given 20000000 21000000 | seq.20000000 | seq --workers 4 -q
jx.1 | With --piece above 131072 they share a MiB or more. | threads 0 0 | cat text.1048575 | check --workers 4 --piece 131073
jx.1 | With --piece above 131072 they share a MiB or more. | threads 4 4 | cat text.1048576 | check --workers 4 --piece 131073
jx.1 | They share a text from 5.25 MiB on. One worker reads a text with --unique-names. | threads 0 0 | text.5505023 | explain --workers 4
jx.1 | They share a text from 5.25 MiB on. One worker reads a text with --unique-names. | threads 4 4 | text.5505024 | explain --workers 4
jx.1 | They share a text from 5.25 MiB on. One worker reads a text with --unique-names. | threads 0 0 | text.5505024 | explain --workers 4 --unique-names
jx.1 | One worker reads with --live. | threads 0 0 | seq.20000000 | seq -q --live
jx.1 | With one worker no thread is started, except one to look up many pointers. | threads 0 0 | text.20000000 | check --workers 1
jx.1 | With one worker no thread is started, except one to look up many pointers. | threads 0 0 | text.20000000 | explain --workers 1
jx.1 | With one worker no thread is started, except one to look up many pointers. | threads 0 0 | text.20000000 | at --workers 1 /1
jx.1 | With one worker no thread is started, except one to look up many pointers. | threads 0 0 | text.20000000 | index --workers 1
jx.1 | With one worker no thread is started, except one to look up many pointers. | threads 0 0 | lines.20000000 | lines -q --workers 1
jx.1 | With one worker no thread is started, except one to look up many pointers. | threads 0 0 | seq.20000000 | seq -q --workers 1
jx.1 | With one worker no thread is started, except one to look up many pointers. | threads 1 1 | text.1200000 | at --workers 1 --pointers many
jx.1 | They are many where there are 10000 or more, and one for each 128 bytes of the text. | threads 4 4 | text.1200000 | at --workers 4 --pointers many
jx.1 | They are many where there are 10000 or more, and one for each 128 bytes of the text. | threads 0 0 | text.1200000 | at --workers 4 --pointers few
jx.1 | They are many where there are 10000 or more, and one for each 128 bytes of the text. | threads 0 0 | text.1300000 | at --workers 4 --pointers many
jx.1 | With fewer than 10000 pointers one thread reads, and at most 256 KiB of the text are kept. | threads 0 0 | text.20000000 | at /1
jx.1 | With fewer than 10000 pointers one thread reads, and at most 256 KiB of the text are kept. | memory - 8000 | text.20000000 | at /1
jx.1 | With --unique-names one thread reads, at most 256 KiB at a time. | threads 0 0 | text.20000000 | check --unique-names
jx.1 | With --unique-names one thread reads, at most 256 KiB at a time. | memory - 8000 | text.20000000 | check --unique-names
jx.1 | One of them reads the text and makes its index. They share the lines of 32768 values or more. | threads 0 0 | text.360428 | index --workers 4
jx.1 | One of them reads the text and makes its index. They share the lines of 32768 values or more. | threads 2 2 | text.360429 | index --workers 4
jx.1 | One of them reads the text and makes its index. They share the lines of 32768 values or more. | threads 4 - | text.20000000 | index --workers 4
jx.1 | One worker reads the text, looks up fewer pointers, and looks up by --index. | threads 0 0 | text.20000000 | get /1 /2
jx.1 | With --lines each reads chunks of 256 KiB of a FILE, from a MiB on. | threads 0 0 | lines.1048575 | get --workers 4 --lines /n
jx.1 | With --lines each reads chunks of 256 KiB of a FILE, from a MiB on. | threads 4 - | lines.1200000 | get --workers 4 --lines /n
jx.1 | With --lines each reads chunks of 256 KiB of a FILE, from a MiB on. | threads 0 0 | cat lines.20000000 | get --workers 4 --lines /n
jx.1 | With --lines each reads chunks of 256 KiB of a FILE, from a MiB on. | given 20000000 21000000 | lines.20000000 | get --workers 4 --lines /n
jx.1 | They share what one read gives, from a MiB on. | threads 4 - | text.20000000 | each --workers 4
jx.1 | A regular FILE of a MiB or more is read by workers, each for itself. | threads 0 0 | lines.1048575 | lines --workers 4 -q
jx.1 | A regular FILE of a MiB or more is read by workers, each for itself. | threads 4 - | lines.1200000 | lines --workers 4 -q
jx.1 | A regular FILE of a MiB or more is read by workers, each for itself. | given 20000000 21000000 | lines.20000000 | lines --workers 4 -q
jx.1 | What is due is written after 16 MiB at most, or 64 chunks of another size. | memory - 40000 | refused.120000000 | lines --workers 4
jx.1 | What is due is written after 16 MiB at most, or 64 chunks of another size. | memory - 90000 | bad.20000000 | lines --workers 4
jx.1 | A read of a pipe mostly gives less, and then one worker reads. | threads 0 0 | cat lines.20000000 | lines --workers 4 -q
docs/PERFORMANCE.md | batches, and 32 bytes an element | memory - 8000 | text.20000000 | seq --workers 1 -q
jx.1 | One worker reads, and no element is kept in memory. | threads 0 0 | seq.20000000 | seq --live
jx.1 | One worker reads, and no element is kept in memory. | memory - 8000 | seq.20000000 | seq --live
jx.1 | Up to 64 pointers, only their values are kept in memory. | memory - 8000 | text.20000000 | get /1 /2 /1
jx.1 | With more pointers, or with --unique-names, the whole input is. | memory 19500 - | text.20000000 | get --pointers many
jx.1 | With more pointers, or with --unique-names, the whole input is. | memory 19500 - | text.20000000 | get --unique-names /1
jx.1 | With --lines one line is kept, and by several workers the rows of 64 chunks. | memory - 8000 | lines.20000000 | get --workers 1 --lines /n
jx.1 | With --lines one line is kept, and by several workers the rows of 64 chunks. | memory - 60000 | lines.120000000 | get --workers 4 --lines /n
jx.1 | With 10000 pointers or more the whole input is | memory 19500 - | text.20000000 | at --pointers many
jx.1 | The text is read to its end, and one element is kept in memory. | memory - 8000 | text.20000000 | each
jx.1 | Of a FILE of a MiB at least each worker reads chunks of 16384 bytes or more for itself. | threads 4 - | text.20000000 | save --workers 4
jx.1 | Of a FILE of a MiB at least each worker reads chunks of 16384 bytes or more for itself. | given 20000000 21000000 | text.20000000 | save --workers 4
jx.1 | Of a FILE of a MiB at least each worker reads chunks of 16384 bytes or more for itself. | threads 0 0 | text.1048575 | save --workers 4
jx.1 | Of a FILE of a MiB at least each worker reads chunks of 16384 bytes or more for itself. | threads 0 0 | text.20000000 | save --workers 4 --chunk 8192
jx.1 | One worker reads standard input and pipes, and with --names, --unique-names or --progress always. | threads 0 0 | text.20000000 | save --workers 4 --names
jx.1 | One worker reads standard input and pipes, and with --names, --unique-names or --progress always. | threads 0 0 | cat text.20000000 | save --workers 4
jx.1 | The text is read once, and not kept; its index is | memory - 8000 | text.20000000 | save
jx.1 | Of a text some bytes around the place are kept in memory, and the open containers with their names. | memory - 8000 | text.7000000 | explain --workers 1
jx.1 | Of a text some bytes around the place are kept in memory, and the open containers with their names. | memory - 8000 | cat text.20000000 | explain --workers 1
jx.1 | Of a text some bytes around the place are kept in memory, and the open containers with their names. | memory - 8000 | text.20000000 | explain --workers 1
jx.1 | With --unique-names a text that is refused is kept as a whole, and so is what is read from a pipe. | memory 19500 - | cat text.20000000 | explain --unique-names
docs/RECIPES.md | Of a pipe `check` keeps two batches of up to 8 MiB, with one worker one of 256 KiB, however long the dump. | memory 16000 28000 | cat text.60000000 | check --workers 4
docs/RECIPES.md | Of a pipe `check` keeps two batches of up to 8 MiB, with one worker one of 256 KiB, however long the dump. | memory - 8000 | cat text.60000000 | check --workers 1
docs/RECIPES.md | Of a file each worker keeps 256 KiB. | memory - 8000 | text.60000000 | check --workers 4
docs/RECIPES.md | Of a file each worker keeps 256 KiB. | memory - 26000 | text.60000000 | check --workers 64
docs/DECISIONS.md | A file of less than a MiB is read in order | threads 0 0 | text.1048575 | check --workers 4
docs/DECISIONS.md | A file of less than a MiB is read in order | threads 4 4 | text.1200000 | check --workers 4
docs/DECISIONS.md | one of up to four chunks starts no thread. | threads 0 0 | text.20000000 | check --workers 4 --piece 6000000
docs/DECISIONS.md | With `--progress` or unique names a file is read in order | threads 0 0 | text.20000000 | check --unique-names
docs/RECIPES.md | Up to 64 pointers `get` keeps only their values in memory, with more the whole text. | memory - 8000 | cat text.20000000 | get /1 /2
docs/DECISIONS.md | One worker that looks up pointers in an index has a thread of its own | threads 1 1 | text.1200000 | get --workers 1 --pointers many
LINES
}

# Loaded before the C library: at the end of a call it writes how many threads were made, the peak of its memory, and how many bytes all
# reads gave. What workers judged and nobody took is read twice.
make_counter() {
    cat >counter.c <<'CODE'
#define _GNU_SOURCE
#include <dlfcn.h>
#include <pthread.h>
#include <stdatomic.h>
#include <stdio.h>
#include <stdlib.h>
#include <sys/syscall.h>
#include <unistd.h>

static atomic_ulong made, given;

static ssize_t noted(ssize_t count) {
    if (count > 0) atomic_fetch_add(&given, (unsigned long)count);
    return count;
}

ssize_t read(int file, void *room, size_t size) {
    ssize_t (*call)(int, void *, size_t) = dlsym(RTLD_NEXT, "read");
    return noted(call(file, room, size));
}

ssize_t pread64(int file, void *room, size_t size, off64_t at) {
    ssize_t (*call)(int, void *, size_t, off64_t) = dlsym(RTLD_NEXT, "pread64");
    return noted(call(file, room, size, at));
}

ssize_t pread(int file, void *room, size_t size, off_t at) { return pread64(file, room, size, at); }

int pthread_create(pthread_t *thread, const pthread_attr_t *how, void *(*job)(void *), void *with) {
    int (*create)(pthread_t *, const pthread_attr_t *, void *(*)(void *), void *) = dlsym(RTLD_NEXT, "pthread_create");
    atomic_fetch_add(&made, 1);
    return create(thread, how, job, with);
}

void _exit(int status) {
    unsigned long peak = 0;
    char line[256];
    FILE *about = fopen("/proc/self/status", "r");
    while (about && fgets(line, sizeof line, about)) sscanf(line, "VmHWM: %lu", &peak);
    FILE *counts = fopen(getenv("JX_COUNTS"), "w");
    if (counts) fprintf(counts, "threads=%lu memory=%lu given=%lu\n", (unsigned long)made, peak, (unsigned long)given);
    if (counts) fclose(counts);
    syscall(SYS_exit_group, status);
    __builtin_unreachable();
}
CODE
    cc -shared -fPIC -O1 -o counter.so counter.c
}

# make_inputs: the files that the lines name, each of so many bytes.
make_inputs() {
    claims | cut -d '|' -f 4 | grep -oE '(text|lines|refused|bad|seq)\.[0-9]+' | sort -u >inputs
    python3 - <<'CODE'
PARTS = {
    "text": (b"[1", b',"abcdefgh"', b"]"),
    "lines": (b"", b'{"n":1}\n', b""),
    "refused": (b"", b'{"n":1}\n' * 15 + b"x\n", b""),
    "bad": (b"", b"x\n", b""),
    "seq": (b"", b'\x1e{"n":1}\n', b""),
}
for name in open("inputs").read().split():
    kind, size = name.split(".")
    front, each, end = PARTS[kind]
    left = int(size) - len(front + end)
    with open(name, "wb") as file:
        file.write(front + each * (left // len(each)) + b" " * (left % len(each)) + end)
CODE
}

# page NAME: its words in a line, as a reader sees them.
page() {
    case $1 in
    *.1) sed -e '/^\.\\"/d; /^\.[A-Za-z]/d; s/\\-/-/g; s/\\(aq/'"'"'/g' "$root/$1" ;;
    *) tr '|' ' ' <"$root/$1" ;;
    esac | flat
}

# counts INPUT WORD..: makes a call. Leaves how many threads and KiB it took, and the bytes of its output.
counts() {
    local input=$1 status=0
    shift
    rm -f counts
    case $input in
    cat\ *) cat "${input#cat }" | JX_COUNTS=counts LD_PRELOAD=$room/counter.so "$program" "$@" >out 2>err ;;
    *) JX_COUNTS=counts LD_PRELOAD=$room/counter.so "$program" "$@" --file "$input" >out 2>err ;;
    esac || status=$?
    if [ "$status" -gt 1 ] || [ ! -e counts ]; then echo "status $status: $(cat err)" && return; fi
    echo "$(cat counts) output=$(wc -c <out)"
}

# threads_on COUNT: how many threads as many workers as processors are, where so many may be used. One worker reads without a thread.
threads_on() { echo $(($1 > 16 ? 16 : $1 > 1 ? $1 : 0)); }

# within NUMBER LEAST MOST: whether it lies there. A `-` is no bound.
within() {
    { [ "$2" = - ] || [ "$1" -ge "$2" ]; } && { [ "$3" = - ] || [ "$1" -le "$3" ]; }
}

each_sentence_is_there() {
    local name sentence
    while IFS='|' read -r name sentence _; do
        name=$(flat <<<"$name") sentence=$(flat <<<"$sentence")
        if [ ! -e "page.${name##*/}" ]; then page "$name" >"page.${name##*/}"; fi
        has "$name" "$sentence" "$(cat "page.${name##*/}")"
    done < <(claims | sort -u -t '|' -k 1,2)
}

each_sentence_is_so() {
    local name sentence bounds input words what least most said number
    while IFS='|' read -r name sentence bounds input words; do
        name=$(flat <<<"$name") sentence=$(flat <<<"$sentence") input=$(flat <<<"$input")
        read -r what least most <<<"$bounds"
        said=$(counts "$input" $words)
        least=${least/auto/$(threads_on "${#processors[@]}")} most=${most/auto/$(threads_on "${#processors[@]}")}
        number=$(sed -n "s/.*$what=\([0-9]*\).*/\1/p" <<<"$said")
        same "$name: $sentence: jx $words on $input: $what from $least to $most" yes \
            "$(if [ -n "$number" ] && within "$number" "$least" "$most"; then echo yes; else echo "$said"; fi)"
    done < <(claims)
}

# The processors that jx may use are those of its affinity.
auto_follows_the_affinity() {
    local count some
    for count in 1 2 "${#processors[@]}"; do
        if [ "$count" -le "${#processors[@]}" ]; then
            some=$(IFS=, && echo "${processors[*]:0:count}")
            same "$count processors" "threads=$(threads_on "$count")" \
                "$(JX_COUNTS=counts LD_PRELOAD=$room/counter.so taskset -c "$some" "$program" check --file text.20000000 >out && cut -d ' ' -f 1 counts)"
        fi
    done
}

if [ "${1-}" = sentences ]; then
    tests each_sentence_is_there
    exit
fi
if ! command -v cc >/dev/null || ! make_counter 2>cc.log; then
    echo 'claims.sh: skipped: no cc that makes a library to count threads'
    echo 'claims.sh: 0 passed, 0 failed'
    exit 0
fi
seq 0 9999 | sed 's|^|/|' >many
head -n 9999 many >few
make_inputs
mapfile -t processors < <(python3 -c 'import os; print(*sorted(os.sched_getaffinity(0)), sep="\n")')
tests each_sentence_is_there each_sentence_is_so auto_follows_the_affinity
