#include "record.h"
#include "fields.h"
#include "sha256.h"

#include <string.h>

record_field record_fields[RECORD_FIELDS];
size_t record_field_count;

static void keep(const fields *f, size_t size) {
    if (!f->are_kept || record_field_count == RECORD_FIELDS) return;
    record_fields[record_field_count++] = (record_field){(uint32_t)f->at, (uint32_t)size};
}

static uint64_t bad(fields *f) {
    f->is_bad = 1;
    return 0;
}

uint64_t read_number(fields *f) {
    if (f->is_bad || f->end - f->at < 8) return bad(f);
    keep(f, 8);
    uint64_t value = 0;
    for (int k = 0; k < 8; k++) value = value << 8 | f->bytes[f->at++];
    return value;
}

unsigned read_one_of(fields *f, unsigned how_many) {
    if (f->is_bad || f->at == f->end) return (unsigned)bad(f);
    keep(f, 1);
    const unsigned value = f->bytes[f->at++];
    return value < how_many ? value : (unsigned)bad(f);
}

offset read_offset(fields *f) {
    offset o = {(int)read_one_of(f, 2), 0};
    if (o.is_there) o.at = read_number(f);
    return o;
}

void read_level(fields *f, int is_last, offset stops[3]) {
    stops[0] = read_offset(f);
    stops[1] = read_offset(f);
    stops[2] = is_last ? read_offset(f) : (offset){1, read_number(f)};
}

/* What all offsets of a form must not be before, and be below. */
typedef struct bounds {
    uint64_t least, below;
    int hold;
} bounds;

static void hold(bounds *b, const offset offsets[], size_t count) {
    for (size_t k = 0; k < count; k++) {
        if (offsets[k].is_there && (offsets[k].at < b->least || offsets[k].at >= b->below)) b->hold = 0;
    }
}

static void hold_one(bounds *b, uint64_t at) { hold(b, &(offset){1, at}, 1); }

static void read_form(fields *f, uint64_t depth, bounds *b) {
    offset stops[3];
    const uint64_t ended = read_number(f);
    for (uint64_t k = 0; k < ended && !f->is_bad; k++) {
        read_level(f, 0, stops);
        hold(b, stops, 3);
    }
    read_level(f, 1, stops);
    hold(b, stops, 3);
    const uint64_t opens = read_number(f);
    for (uint64_t k = 0; k < opens && !f->is_bad; k++) read_one_of(f, 3);
    const int goes_on = (int)read_one_of(f, 2);
    if (goes_on) read_one_of(f, RECORD_EXPECTATIONS);
    const uint64_t heights = read_number(f);
    for (uint64_t k = 0; k < heights && !f->is_bad; k++) hold_one(b, read_number(f));
    if (f->is_bad) return;
    const int stops_in_all = stops[0].is_there && stops[1].is_there && stops[2].is_there;
    if (ended > depth || opens > depth || heights > depth + 1 || opens > ended + heights) b->hold = 0;
    if (goes_on ? stops_in_all : !stops_in_all && ended + heights <= depth) b->hold = 0;
}

static int read_structure(fields *f, const record *r) {
    bounds b = {0, r->length, 1};
    const offset string = read_offset(f);
    hold(&b, &string, 1);
    if (string.is_there) b.least = string.at + 1;
    if (read_one_of(f, 2)) {
        read_one_of(f, RECORD_KINDS);
        const uint64_t at = read_number(f);
        hold_one(&b, at);
        b.least = at + 1;
        read_form(f, r->depth, &b);
    }
    return b.hold;
}

static int read_head(fields *f, record *r) {
    static const uint8_t head[8] = {0x89, 'j', 'x', 'r', 'u', 'n', '\n', 1};
    uint8_t digest[RECORD_DIGEST];
    if (r->size < RECORD_HEAD + RECORD_DIGEST || memcmp(r->bytes, head, 8) != 0) return 0;
    *f = (fields){r->bytes, 8, r->size - RECORD_DIGEST, 0, 1};
    const uint64_t told = read_number(f);
    r->depth = read_number(f);
    if (r->depth > JX_DEPTH_MAX || told != r->size) return 0;
    sha256(r->bytes, r->size - RECORD_DIGEST, digest);
    if (memcmp(digest, r->bytes + r->size - RECORD_DIGEST, RECORD_DIGEST) != 0) return 0;
    const offset from = read_offset(f);
    r->has_from = from.is_there;
    r->from = from.at;
    r->length = read_number(f);
    return 1;
}

int record_read(const uint8_t *bytes, size_t size, record *r) {
    fields f;
    record_field_count = 0;
    r->bytes = bytes;
    r->size = size;
    if (!read_head(&f, r)) return 0;
    const uint64_t ways = read_number(&f);
    for (uint64_t k = 0; k < ways && !f.is_bad; k++) {
        record_way way = {(int)read_one_of(&f, 2), 0, 0};
        way.end = way.is_fault ? read_number(&f) : read_one_of(&f, RECORD_STATES);
        way.structure = read_number(&f);
        if (k < RECORD_STATES) r->ways[k] = way;
    }
    const uint64_t structures = read_number(&f);
    if (f.is_bad || structures > RECORD_STATES) return 0;
    int holds = ways == RECORD_STATES && r->length <= UINT64_MAX - r->from;
    r->structures = (size_t)structures;
    for (size_t k = 0; k < structures; k++) {
        r->structure_at[k] = f.at;
        if (!read_structure(&f, r)) holds = 0;
    }
    for (size_t k = 0; k < RECORD_STATES && holds; k++) holds = r->ways[k].structure < structures;
    return holds && !f.is_bad && f.at == f.end;
}

void record_seal(uint8_t *bytes, size_t size) {
    if (size < RECORD_HEAD + RECORD_DIGEST) return;
    for (int k = 0; k < 8; k++) bytes[8 + k] = (uint8_t)((uint64_t)size >> (56 - 8 * k));
    sha256(bytes, size - RECORD_DIGEST, bytes + size - RECORD_DIGEST);
}
