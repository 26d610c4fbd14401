/* Runs: the texts of the table in parts that are cut anywhere, what each status says, bytes that are no run, and each request
 * for memory refused in turn: runs FILE. Linked with --wrap=malloc and --wrap=realloc. */
#define TEST "runs"
#define REFUSES_MEMORY
#include "testing.h"

/* A run in a buffer that ends where its bytes do, so that one byte too many that is read is seen. */
typedef struct run {
    uint8_t *bytes;
    size_t size;
} run;

static uint8_t buffer[1 << 20];

static run kept(size_t size) {
    const run made = {__real_malloc(size), size};
    if (made.bytes == NULL) exit(2);
    memcpy(made.bytes, buffer, size);
    return made;
}

static run run_of(const char *part, size_t size, uint64_t from, uint32_t depth, size_t line) {
    size_t told = 0;
    expect(jx_run_of(bytes(part), size, from, depth, buffer, sizeof buffer, &told) == JX_OK, "a part is read", line);
    return kept(told);
}

static run joined(run left, run right, size_t line) {
    size_t told = 0;
    const uint32_t status = jx_run_join(left.bytes, left.size, right.bytes, right.size, buffer, sizeof buffer, &told);
    expect(status == JX_OK, "neighbours are joined", line);
    free(left.bytes);
    free(right.bytes);
    return kept(told);
}

static void has_verdict(run whole, size_t start, size_t end, const jx_verdict *wanted, const char *what, size_t line) {
    jx_verdict told = {99, 99};
    expect(jx_run_verdict(whole.bytes, whole.size, start, end, &told) == JX_OK && same(&told, wanted), what, line);
    free(whole.bytes);
}

/* In two parts at each byte, in three in both bracketings, with and without offsets, and one that begins further on. */
static void in_parts(const char *text, size_t size, uint32_t depth, const jx_verdict *wanted, size_t line) {
    for (size_t cut = 0; cut <= size; cut++) {
        const run left = run_of(text, cut, 0, depth, line);
        const run right = run_of(text + cut, size - cut, cut, depth, line);
        has_verdict(joined(left, right, line), 0, size, wanted, "two parts come to the verdict of the whole", line);
        const size_t next = cut + (size - cut) / 2;
        const run parts[] = {
            run_of(text, cut, JX_NO_FROM, depth, line),
            run_of(text + cut, next - cut, JX_NO_FROM, depth, line),
            run_of(text + next, size - next, JX_NO_FROM, depth, line),
        };
        const run first = cut % 2 == 0 ? joined(parts[0], parts[1], line) : parts[0];
        const run second = cut % 2 == 0 ? parts[2] : joined(parts[1], parts[2], line);
        has_verdict(joined(first, second, line), 0, size, wanted, "three parts come to it in either bracketing", line);
    }
    const int has_offset = wanted->kind == JX_STOPPED || wanted->kind == JX_TOO_DEEP;
    const jx_verdict further = {wanted->offset + (has_offset ? 1000 : 0), wanted->kind};
    has_verdict(run_of(text, size, 1000, depth, line), 1000, 1000 + size, &further, "offsets count from the text's start", line);
}

static void parts_of(const row *row) {
    jx_verdict wanted = row->verdict;
    if (wanted.kind == JX_TRUNCATED) wanted.offset = 0;
    in_parts((const char *)row->text, row->size, row->depth, &wanted, row->line);
}

static uint32_t join_status(run left, run right) {
    size_t told = 99;
    const uint32_t status = jx_run_join(left.bytes, left.size, right.bytes, right.size, buffer, sizeof buffer, &told);
    return status == JX_OK || told == 99 ? status : 99;
}

static void statuses(void) {
    size_t told = 99;
    jx_verdict verdict = {99, 99};
    expect(jx_run_of(bytes("1"), 1, 0, JX_DEPTH_MAX + 1, buffer, 0, &told) == JX_DEPTH_TOO_GREAT && told == 99, "a depth", 0);
    expect(jx_run_of(bytes("12"), 2, UINT64_MAX - 1, 1, buffer, 0, &told) == JX_TOO_MANY_BYTES && told == 99, "an end past 2^64", 0);
    const run left = run_of("[1,", 3, 0, 512, 0);
    const run right = run_of("2]", 2, 3, 512, 0);
    const run lost = run_of("2]", 2, 4, 512, 0);
    const run unplaced = run_of("2]", 2, JX_NO_FROM, 512, 0);
    const run shallow = run_of("2]", 2, 3, 511, 0);
    const run last = run_of("", 0, UINT64_MAX - 1, 512, 0);
    const run far = run_of("1", 1, UINT64_MAX - 2, 512, 0);
    expect(join_status(left, right) == JX_OK, "neighbours", 0);
    expect(join_status(right, left) == JX_NOT_NEIGHBOURS, "in wrong order", 0);
    expect(join_status(left, left) == JX_NOT_NEIGHBOURS, "a part twice", 0);
    expect(join_status(left, lost) == JX_NOT_NEIGHBOURS, "a gap", 0);
    expect(join_status(left, unplaced) == JX_NOT_NEIGHBOURS, "one without an offset on the right", 0);
    expect(join_status(unplaced, right) == JX_NOT_NEIGHBOURS, "one without an offset on the left", 0);
    expect(join_status(unplaced, unplaced) == JX_OK, "both without offsets", 0);
    expect(join_status(left, shallow) == JX_OTHER_DEPTH, "another depth", 0);
    expect(join_status(far, last) == JX_OK, "near 2^64", 0);
    expect(jx_run_verdict(right.bytes, right.size, 3, 5, &verdict) == JX_OK && verdict.kind == JX_STOPPED && verdict.offset == 4, "a part is a text of its own", 0);
    verdict = (jx_verdict){99, 99};
    const size_t spans[][2] = {{0, 5}, {3, 4}, {3, 6}, {2, 5}, {0, 2}, {5, 3}, {SIZE_MAX, 5}, {3, SIZE_MAX}};
    for (size_t at = 0; at < sizeof spans / sizeof spans[0]; at++) {
        const uint32_t status = jx_run_verdict(right.bytes, right.size, spans[at][0], spans[at][1], &verdict);
        expect(status == JX_NOT_NEIGHBOURS && verdict.kind == 99, "a run of other bytes", at);
    }
    const run all[] = {left, right, lost, unplaced, shallow, last, far};
    for (size_t at = 0; at < sizeof all / sizeof all[0]; at++) {
        expect(all[at].size <= JX_RUN_MOST(512), "no run is greater than told", at);
        free(all[at].bytes);
    }
}

/* Where there is no room nothing is written, and the size is told. */
static void room(void) {
    static uint8_t copy[sizeof buffer];
    size_t size = 0;
    expect(jx_run_of(bytes("{\"a\":[1"), 7, 0, 512, buffer, sizeof buffer, &size) == JX_OK, "a run", 0);
    const run left = kept(size);
    const run right = run_of("2]}", 3, 7, 512, 0);
    for (size_t given = 0; given <= size + 1; given++) {
        size_t told = 0;
        memset(copy, 0xA5, size + 8);
        memset(buffer, 0xA5, size + 8);
        const uint32_t status = jx_run_of(bytes("{\"a\":[1"), 7, 0, 512, buffer, given, &told);
        if (given < size) {
            expect(status == JX_NO_ROOM && told == size && memcmp(buffer, copy, size + 8) == 0, "no room", given);
        } else {
            memcpy(copy, left.bytes, size);
            expect(status == JX_OK && told == size && memcmp(buffer, copy, size + 8) == 0, "room", given);
        }
    }
    size_t told = 0;
    memset(buffer, 0xA5, 8);
    expect(jx_run_join(left.bytes, left.size, right.bytes, right.size, buffer, 7, &told) == JX_NO_ROOM && told > 7, "no room for a join", 0);
    expect(memcmp(buffer, "\xA5\xA5\xA5\xA5\xA5\xA5\xA5\xA5", 8) == 0, "nothing is written", 0);
    free(left.bytes);
    free(right.bytes);
}

/* Each beginning of a run, and each byte changed: none is a run. */
static void no_runs(void) {
    jx_verdict verdict = {99, 99};
    run one = run_of("{\"a\":[1,{\"b\":\"x", 14, 5, 512, 0);
    for (size_t end = 0; end < one.size; end++) {
        uint8_t *cut = __real_malloc(end + (end == 0));
        if (cut == NULL) exit(2);
        memcpy(cut, one.bytes, end);
        expect(jx_run_verdict(cut, end, 5, 19, &verdict) == JX_NOT_A_RUN, "a run that is cut short", end);
        free(cut);
    }
    const run before = run_of("     ", 5, 0, 512, 0);
    const run behind = run_of("\"]}", 3, 19, 512, 0);
    expect(join_status(before, one) == JX_OK && join_status(one, behind) == JX_OK, "runs of neighbours", 0);
    for (size_t at = 0; at < one.size; at++) {
        one.bytes[at] ^= 0x10;
        expect(jx_run_verdict(one.bytes, one.size, 5, 19, &verdict) == JX_NOT_A_RUN, "a byte that changed", at);
        expect(join_status(one, one) == JX_NOT_A_RUN, "a byte that changed, on both sides", at);
        expect(join_status(before, one) == JX_NOT_A_RUN, "a byte that changed, on the right", at);
        expect(join_status(one, behind) == JX_NOT_A_RUN, "a byte that changed, on the left", at);
        one.bytes[at] ^= 0x10;
    }
    expect(verdict.kind == 99, "no verdict is told", 0);
    expect(jx_run_verdict(one.bytes, one.size, 5, 19, &verdict) == JX_OK && verdict.kind == JX_TRUNCATED, "it is a run again", 0);
    free(one.bytes);
    free(before.bytes);
    free(behind.bytes);
}

static void each_request_refused(void) {
    static char text[4096];
    jx_verdict verdict = {99, 99};
    size_t told = 99;
    memset(text, '[', 600);
    memset(text + 600, ']', 600);
    const run left = run_of(text, 700, 0, 600, 0);
    const run right = run_of(text + 700, 500, 700, 600, 0);
    for (size_t call = 0; call < 3; call++) {
        for (size_t nth = 0;; nth++) {
            buffer[0] = 0xA5;
            told = 99;
            verdict = (jx_verdict){99, 99};
            granted = (long)nth;
            const uint32_t status = call == 0   ? jx_run_of(bytes(text), 700, 0, 600, buffer, sizeof buffer, &told)
                                    : call == 1 ? jx_run_join(left.bytes, left.size, right.bytes, right.size, buffer, sizeof buffer, &told)
                                                : jx_run_verdict(left.bytes, left.size, 0, 700, &verdict);
            granted = -1;
            if (status == JX_OK) {
                expect(nth > 0, "memory is asked for", call);
                break;
            }
            expect(status == JX_NO_MEMORY && buffer[0] == 0xA5 && told == 99 && verdict.kind == 99, "a request that is refused", nth);
        }
    }
    free(left.bytes);
    free(right.bytes);
}

int main(int count, char **words) {
    if (count < 2) return 2;
    each_row(words[1], parts_of);
    statuses();
    room();
    no_runs();
    each_request_refused();
    return counted();
}
