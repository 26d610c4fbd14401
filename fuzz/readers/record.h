/* A reader of runs, written from docs/FORMAT.md alone. It calls a run's bytes a record. */
#ifndef RECORD_H
#define RECORD_H

#include "jx.h"

enum { RECORD_HEAD = 24, RECORD_DIGEST = 32, RECORD_FIELDS = 4096, RECORD_STATES = 32 };

/* What reading the part comes to from one lexical state. */
typedef struct record_way {
    int is_fault;
    uint64_t end; /* the state, or the offset of the fault */
    uint64_t structure;
} record_way;

typedef struct record {
    uint64_t depth, from, length;
    int has_from;
    record_way ways[RECORD_STATES];
    size_t structures;
    size_t structure_at[RECORD_STATES]; /* where each begins in the bytes */
    const uint8_t *bytes;
    size_t size;
} record;

/* Where the fields of the record that was read last begin, and how many bytes each has: for whoever forges one. */
typedef struct record_field {
    uint32_t at, size;
} record_field;
extern record_field record_fields[RECORD_FIELDS];
extern size_t record_field_count;

/* Whether the bytes are a record. The record keeps a pointer to them. */
int record_read(const uint8_t *bytes, size_t size, record *r);

/* Writes the size and the digest that the bytes should have. */
void record_seal(uint8_t *bytes, size_t size);

/* Where reading stands: a state, an expectation, the open containers, outermost first, and how many bytes were read. */
typedef struct record_place {
    uint8_t state, expected;
    uint8_t *open; /* 0 an array, 1 an object */
    size_t count, room;
    uint64_t at;
} record_place;

void record_start(record_place *place, uint64_t at);

/* Reads on by a record. JX_ACCEPTED says that it went on; else where it stopped. */
jx_verdict record_follow(const record *r, record_place *place);

/* Whether the bytes that led to this place are a text, or are truncated. */
jx_verdict record_end(const record_place *place);

#endif
