/* Names, and the tokens of pointers, as lists of UTF-16 code units (RFC 8259, sections 7 and 8.3; RFC 6901, section 4). */
#ifndef NAMES_H
#define NAMES_H

#include "plain.h"

enum { NO_UNIT = -1 };

typedef struct units {
    const uint8_t *at, *end;
    int low;      /* the second unit of a character, or NO_UNIT */
    int is_token; /* of a pointer, which escapes by ~ */
} units;

units units_of_name(const uint8_t *bytes, jx_span name);
units units_of_token(const uint8_t *token, size_t size);

/* The next unit; NO_UNIT at the end. */
int next_unit(units *u);

int are_same(units a, units b);

/* The offset of the first name that its object has had before; SIZE_MAX where there is none. */
size_t first_repeated(const uint8_t *bytes, const plain_rows *rows);

#endif
