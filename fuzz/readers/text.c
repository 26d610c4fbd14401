/* Whole texts (RFC 8259, sections 2 to 5), as a list of rows. */
#include "names.h"
#include "plain.h"
#include "tokens.h"

#include <stdlib.h>

static const size_t NO_ROW = SIZE_MAX;

static jx_row *rows_kept;
static size_t *children; /* how many each row of a container has */
static size_t room_kept;

typedef struct reading {
    const uint8_t *text;
    size_t at, end, depth;
    size_t in;    /* the row of the innermost open container */
    size_t open;  /* how many containers are open */
    int is_first; /* nothing stands in the innermost container yet */
    jx_span name; /* of the next value, if it is a member's */
    plain_rows *rows;
} reading;

static jx_row *new_row(size_t number) {
    if (number == room_kept) {
        room_kept = room_kept == 0 ? 1024 : 2 * room_kept;
        rows_kept = realloc(rows_kept, room_kept * sizeof *rows_kept);
        children = realloc(children, room_kept * sizeof *children);
        if (rows_kept == NULL || children == NULL) abort();
    }
    children[number] = 0;
    return &rows_kept[number];
}

static jx_verdict verdict_of(uint32_t kind, size_t at) {
    return (jx_verdict){kind == JX_ACCEPTED || kind == JX_TRUNCATED ? 0 : at, kind};
}

static jx_verdict fault(const reading *r) { return verdict_of(r->at == r->end ? JX_TRUNCATED : JX_STOPPED, r->at); }

/* A whole scalar, or the bracket that opens a container, which is not gone over. */
static int read_token(reading *r, uint32_t *kind) {
    const uint8_t byte = r->text[r->at];
    switch (byte) {
    case '{': *kind = JX_OBJECT; return 1;
    case '[': *kind = JX_ARRAY; return 1;
    case '"': *kind = JX_STRING; return string(r->text, r->end, &r->at);
    case 't': *kind = JX_TRUE; return literal(r->text, r->end, &r->at, "true");
    case 'f': *kind = JX_FALSE; return literal(r->text, r->end, &r->at, "false");
    case 'n': *kind = JX_NULL; return literal(r->text, r->end, &r->at, "null");
    default: *kind = JX_NUMBER; return (byte == '-' || is_digit(byte)) && number(r->text, r->end, &r->at);
    }
}

static jx_verdict read_value(reading *r) {
    blanks(r->text, r->end, &r->at);
    if (r->at == r->end) return fault(r);
    const size_t start = r->at, number_of_row = r->rows->count;
    uint32_t kind;
    if (!read_token(r, &kind)) return fault(r);
    const int opens = kind == JX_OBJECT || kind == JX_ARRAY;
    if (opens && r->open == r->depth) return verdict_of(JX_TOO_DEEP, r->at);
    jx_row *row = new_row(number_of_row);
    *row = (jx_row){{start, r->at}, r->name, r->in, r->in == NO_ROW ? 0 : children[r->in]++, kind};
    r->rows->count++;
    r->is_first = opens;
    if (opens) {
        r->in = number_of_row;
        r->at++;
        if (++r->open > r->rows->deepest) r->rows->deepest = r->open;
    }
    return verdict_of(JX_ACCEPTED, 0);
}

static int read_name(reading *r) {
    blanks(r->text, r->end, &r->at);
    if (r->at == r->end || r->text[r->at] != '"') return 0;
    r->name.start = r->at;
    if (!string(r->text, r->end, &r->at)) return 0;
    r->name.end = r->at;
    blanks(r->text, r->end, &r->at);
    if (r->at == r->end || r->text[r->at] != ':') return 0;
    r->at++;
    return 1;
}

/* Reads what stands behind a value, or behind the bracket that opens a container, up to where the next value is due. */
static jx_verdict read_on(reading *r, int *is_due) {
    *is_due = 0;
    for (;; r->is_first = 0) {
        blanks(r->text, r->end, &r->at);
        if (r->in == NO_ROW && r->at == r->end) return verdict_of(JX_ACCEPTED, 0);
        if (r->in == NO_ROW || r->at == r->end) return fault(r);
        const int is_object = rows_kept[r->in].kind == JX_OBJECT;
        if (r->text[r->at] == (is_object ? '}' : ']')) {
            rows_kept[r->in].span.end = ++r->at;
            r->in = rows_kept[r->in].parent;
            r->open--;
            continue;
        }
        if (!r->is_first && r->text[r->at] != ',') return fault(r);
        if (!r->is_first) r->at++;
        *is_due = 1;
        r->name = (jx_span){0, 0};
        return is_object && !read_name(r) ? fault(r) : verdict_of(JX_ACCEPTED, 0);
    }
}

static jx_verdict read_text(reading *r) {
    int is_due = 1;
    jx_verdict verdict = verdict_of(JX_ACCEPTED, 0);
    while (is_due && verdict.kind == JX_ACCEPTED) {
        verdict = read_value(r);
        if (verdict.kind == JX_ACCEPTED) verdict = read_on(r, &is_due);
    }
    return verdict;
}

/* Reads on behind an ignored mark, of which the text may have a part. */
static int read_mark(reading *r, size_t start) {
    static const uint8_t mark[3] = {0xEF, 0xBB, 0xBF};
    if (r->at == r->end || r->text[r->at] != mark[0]) return 1;
    for (; r->at < start + 3; r->at++) {
        if (r->at == r->end || r->text[r->at] != mark[r->at - start]) return 0;
    }
    return 1;
}

jx_verdict plain_read(const uint8_t *bytes, size_t start, size_t end, const jx_settings *settings, plain_rows *rows) {
    reading r = {bytes, start, end, settings->depth, NO_ROW, 0, 0, {0, 0}, rows};
    rows->count = rows->deepest = 0;
    jx_verdict verdict = settings->flags & JX_IGNORE_MARK && !read_mark(&r, start) ? fault(&r) : read_text(&r);
    rows->all = rows_kept;
    if (verdict.kind == JX_ACCEPTED && settings->flags & JX_UNIQUE_NAMES) {
        const size_t at = first_repeated(bytes, rows);
        if (at != SIZE_MAX) verdict = verdict_of(JX_REPEATED_NAME, at);
    }
    if (verdict.kind != JX_ACCEPTED) rows->count = 0;
    return verdict;
}
