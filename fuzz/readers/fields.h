/* The fields of a record, one after another. */
#ifndef FIELDS_H
#define FIELDS_H

#include <stddef.h>
#include <stdint.h>

typedef struct fields {
    const uint8_t *bytes;
    size_t at, end;
    int is_bad;   /* a field had no room, or a byte that it may not have */
    int are_kept; /* in record_fields */
} fields;

/* An offset, which may be missing. */
typedef struct offset {
    int is_there;
    uint64_t at;
} offset;

uint64_t read_number(fields *f);
unsigned read_one_of(fields *f, unsigned how_many);
offset read_offset(fields *f);

/* Where an ended container's part of a form stops: in an array, in an object, in neither. The last one may stop nowhere. */
void read_level(fields *f, int is_last, offset stops[3]);

enum { RECORD_KINDS = 11, RECORD_EXPECTATIONS = 8 };

#endif
