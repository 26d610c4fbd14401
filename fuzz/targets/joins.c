#include "runs.h"

#include <stdlib.h>
#include <string.h>

enum { MOST_PARTS = 12 };

typedef struct parts {
    run all[MOST_PARTS];
    size_t count;
    uint64_t base; /* the offset of the text's first byte */
    int tell;      /* the runs tell their offsets */
} parts;

static jx_verdict shifted(jx_verdict verdict, uint64_t by) {
    if (verdict.kind == JX_STOPPED || verdict.kind == JX_TOO_DEEP) verdict.offset += by;
    return verdict;
}

/* Cuts the text anywhere. Tells whether there is a run of each part: none is of one that would end at 2^64 or behind. */
static int cut(input *in, parts *p) {
    const int wanted = 1 + choice(in) % (MOST_PARTS - 1);
    size_t at = 0;
    for (int k = 0; k < wanted; k++) {
        const size_t size = k + 1 == wanted ? in->size - at : choice_upto(in, in->size - at);
        const uint64_t from = p->tell ? p->base + at : JX_NO_FROM;
        uint8_t *part = kept_copy(in->text + at, size);
        const uint32_t status = run_of(in, part, size, from, &p->all[p->count]);
        free(part);
        if (from != JX_NO_FROM && size > UINT64_MAX - from) {
            REQUIRE(status == JX_TOO_MANY_BYTES, "a part that would end too far on");
            return 0;
        }
        REQUIRE(status == JX_OK, "a part's status");
        p->count++;
        at += size;
        if (p->tell && from == JX_NO_FROM) return 0; /* The one offset that is not told. */
    }
    return 1;
}

static void join_two(input *in, parts *p, size_t k) {
    run joined;
    run *left = &p->all[k], *right = &p->all[k + 1];
    REQUIRE(run_join(in, left, right, &joined) == JX_OK, "a join's status");
    free(left->bytes);
    free(right->bytes);
    *left = joined;
    memmove(right, right + 1, (p->count - k - 2) * sizeof *right);
    p->count--;
}

static void hold_whole(input *in, const run *whole, uint64_t base, const jx_verdict *wanted) {
    uint32_t status;
    jx_verdict told = no_verdict;
    const uint64_t end = base + in->size;
    CALL(status, jx_run_verdict(whole->bytes, whole->size, base, end, &told), is_no_verdict(&told));
    REQUIRE(status == JX_OK && same_verdict(&told, wanted), "the verdict of the whole run");
    told = no_verdict;
    REQUIRE(jx_run_verdict(whole->bytes, whole->size, base, end + 1, &told) == JX_NOT_NEIGHBOURS && is_no_verdict(&told), "a verdict on more");
    REQUIRE(jx_run_verdict(whole->bytes, whole->size, base + 1, end, &told) == JX_NOT_NEIGHBOURS && is_no_verdict(&told), "a verdict on less");
}

void join_runs(input *in) {
    static parts p;
    plain_rows rows;
    in->settings.flags = 0;
    if (in->settings.depth > 4096 && in->size < 4096) in->settings.depth = 4096;
    p.count = 0;
    p.base = choice(in) % 4 ? 0 : choice_of_eight(in);
    p.tell = choice(in) % 4 > 0;
    if (!p.tell) p.base = 0;
    if (cut(in, &p)) {
        const jx_verdict wanted = shifted(plain_read(in->text, 0, in->size, &in->settings, &rows), p.base);
        for (;;) {
            const jx_verdict told = runs_follow(p.all, p.count, p.base);
            REQUIRE(same_verdict(&told, &wanted), "the records, one behind another");
            if (p.count == 1) break;
            join_two(in, &p, choice_upto(in, p.count - 2));
        }
        hold_whole(in, &p.all[0], p.base, &wanted);
    }
    while (p.count > 0) free(p.all[--p.count].bytes);
}
