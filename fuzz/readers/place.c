/* Reading by records, one behind another, as docs/FORMAT.md says. */
#include "fields.h"
#include "record.h"

#include <stdlib.h>

enum { GAP = 0, ZERO = 15, INT = 16, FRAC = 18, EXP = 21 };
enum { VALUE, ARRAY_FIRST, OBJECT_FIRST, NAME, COLON, AFTER, VALUE_OR_NAME, AFTER_OR_COLON };
enum { OPEN_ARRAY, CLOSE_ARRAY, OPEN_OBJECT, CLOSE_OBJECT, A_COLON, A_COMMA, A_STRING };
enum { IN_ARRAY, IN_OBJECT, IN_NONE };

static const jx_verdict went = {0, JX_ACCEPTED};

static unsigned holder(const record_place *p) { return p->count == 0 ? IN_NONE : p->open[p->count - 1]; }

static void open_one(record_place *p, unsigned what) {
    if (p->count == p->room) {
        p->room = p->room == 0 ? 1024 : 2 * p->room;
        p->open = realloc(p->open, p->room);
        if (p->open == NULL) abort();
    }
    p->open[p->count++] = (uint8_t)what;
}

/* An offset in the text; the greatest one for what a forged record tells. */
static jx_verdict stopped(uint32_t kind, const record_place *p, uint64_t at) {
    return (jx_verdict){at > UINT64_MAX - p->at ? UINT64_MAX : p->at + at, kind};
}

static int is_value_due(const record_place *p) { return p->expected == VALUE || p->expected == ARRAY_FIRST; }

static int may_close(const record_place *p, unsigned what) {
    return holder(p) == what && (p->expected == AFTER || p->expected == (what == IN_ARRAY ? ARRAY_FIRST : OBJECT_FIRST));
}

/* One mark, by the grammar (RFC 8259, sections 2 to 5). */
static jx_verdict act(uint64_t depth, record_place *p, unsigned kind, uint64_t at) {
    const unsigned in = holder(p), what = kind == OPEN_ARRAY || kind == CLOSE_ARRAY ? IN_ARRAY : IN_OBJECT;
    const int is_name_due = p->expected == OBJECT_FIRST || p->expected == NAME;
    switch (kind) {
    case OPEN_ARRAY:
    case OPEN_OBJECT:
        if (!is_value_due(p)) return stopped(JX_STOPPED, p, at);
        if (p->count >= depth) return stopped(JX_TOO_DEEP, p, at);
        open_one(p, what);
        p->expected = what == IN_ARRAY ? ARRAY_FIRST : OBJECT_FIRST;
        return went;
    case CLOSE_ARRAY:
    case CLOSE_OBJECT:
        if (!may_close(p, what)) return stopped(JX_STOPPED, p, at);
        p->count--;
        p->expected = AFTER;
        return went;
    case A_COLON:
        if (p->expected != COLON) return stopped(JX_STOPPED, p, at);
        p->expected = VALUE;
        return went;
    case A_COMMA:
        if (p->expected != AFTER || in == IN_NONE) return stopped(JX_STOPPED, p, at);
        p->expected = in == IN_ARRAY ? VALUE : NAME;
        return went;
    default:
        if (!is_value_due(p) && !(kind == A_STRING && is_name_due)) return stopped(JX_STOPPED, p, at);
        p->expected = kind == A_STRING && is_name_due ? COLON : AFTER;
        return went;
    }
}

/* Leaves the containers that the part ends; tells where it stops in one of them, if it does. */
static offset leave_ended(fields *f, record_place *p) {
    offset stop = {0, 0}, stops[3];
    const uint64_t ended = read_number(f);
    for (uint64_t k = 0; k <= ended; k++) {
        read_level(f, k == ended, stops);
        if (stop.is_there) continue;
        stop = stops[holder(p)];
        if (!stop.is_there && k < ended && p->count > 0) p->count--;
    }
    return stop;
}

/* Which expectation a part leaves that does not tell which container it is in. */
static void settle(record_place *p) {
    if (p->expected == VALUE_OR_NAME) p->expected = holder(p) == IN_OBJECT ? NAME : VALUE;
    if (p->expected == AFTER_OR_COLON) p->expected = holder(p) == IN_OBJECT ? COLON : AFTER;
}

static jx_verdict act_form(const record *r, fields *f, record_place *p) {
    const uint64_t height = r->depth - p->count;
    const offset stop = leave_ended(f, p);
    const size_t before = p->count;
    const uint64_t opens = read_number(f);
    for (uint64_t k = 0; k < opens; k++) open_one(p, read_one_of(f, 3));
    if (read_one_of(f, 2)) p->expected = (uint8_t)read_one_of(f, RECORD_EXPECTATIONS);
    const uint64_t heights = read_number(f);
    for (uint64_t k = 0; k < heights; k++) {
        const uint64_t deep = read_number(f);
        if (k == height && (!stop.is_there || deep < stop.at)) {
            p->count = before;
            return stopped(JX_TOO_DEEP, p, deep);
        }
    }
    if (stop.is_there) return stopped(JX_STOPPED, p, stop.at);
    settle(p);
    return went;
}

void record_start(record_place *place, uint64_t at) {
    place->state = GAP;
    place->expected = VALUE;
    place->count = 0;
    place->at = at;
}

jx_verdict record_follow(const record *r, record_place *place) {
    const record_way *way = &r->ways[place->state];
    fields f = {r->bytes, r->structure_at[way->structure], r->size - RECORD_DIGEST, 0, 0};
    jx_verdict verdict = went;
    const offset string = read_offset(&f);
    if (string.is_there) verdict = act(r->depth, place, A_STRING, string.at);
    if (verdict.kind == JX_ACCEPTED && read_one_of(&f, 2)) {
        const unsigned kind = read_one_of(&f, RECORD_KINDS);
        verdict = act(r->depth, place, kind, read_number(&f));
        if (verdict.kind == JX_ACCEPTED) verdict = act_form(r, &f, place);
    }
    if (verdict.kind == JX_ACCEPTED && way->is_fault) verdict = stopped(JX_STOPPED, place, way->end);
    if (verdict.kind != JX_ACCEPTED) return verdict;
    place->state = (uint8_t)way->end;
    place->at += r->length;
    return verdict;
}

jx_verdict record_end(const record_place *place) {
    const uint8_t s = place->state;
    const int is_between = s == GAP || s == ZERO || s == INT || s == FRAC || s == EXP;
    return (jx_verdict){0, is_between && place->expected == AFTER && place->count == 0 ? JX_ACCEPTED : JX_TRUNCATED};
}
