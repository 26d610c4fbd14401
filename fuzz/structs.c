/* What the structs of jx.h say. */
#include "harness.h"

#include <string.h>

enum { UNWRITTEN = 0x5A };

const jx_verdict no_verdict = {0x5A5A5A5A, 0x5A5A5A5A};

int same_verdict(const jx_verdict *a, const jx_verdict *b) { return a->kind == b->kind && a->offset == b->offset; }

int is_no_verdict(const jx_verdict *verdict) { return same_verdict(verdict, &no_verdict); }

static int same_span(const jx_span *a, const jx_span *b) { return a->start == b->start && a->end == b->end; }

int same_row(const jx_row *a, const jx_row *b) {
    return same_span(&a->span, &b->span) && same_span(&a->name, &b->name) && a->parent == b->parent && a->place == b->place && a->kind == b->kind;
}

int same_answer(const jx_answer *a, const jx_answer *b) {
    return same_span(&a->span, &b->span) && a->at == b->at && a->outcome == b->outcome && a->kind == b->kind;
}

void *unwritten(size_t size) { return memset(kept(size), UNWRITTEN, size); }

int is_unwritten(const void *block, size_t size) {
    const uint8_t *bytes = block;
    for (size_t k = 0; k < size; k++) {
        if (bytes[k] != UNWRITTEN) return 0;
    }
    return 1;
}
