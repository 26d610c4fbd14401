/* Pointers that an input asks for. */
#ifndef POINTERS_H
#define POINTERS_H

#include "targets.h"

enum { MOST_POINTERS = 700 };

typedef struct pointers {
    jx_pointer all[MOST_POINTERS];
    size_t count;
} pointers;

/* Bytes as they stand, or the path to a value with something behind it or changed in it. */
void make_pointers(input *in, const plain_rows *rows, pointers *p);

/* Beside them so many paths to values here and there, in no order. */
void make_more_pointers(input *in, const plain_rows *rows, pointers *p, size_t more);

void free_pointers(pointers *p);

#endif
