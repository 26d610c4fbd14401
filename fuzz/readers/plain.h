/* Plain readers of texts, names, pointers and sequences: what the calls of jx.h should answer, in its types. They are written from the
 * standards alone, hold a row for each value, and share no line with the library. */
#ifndef PLAIN_H
#define PLAIN_H

#include "jx.h"

/* The values of the text that was read last, in the order of their starts. The next reading takes their place. */
typedef struct plain_rows {
    jx_row *all;
    size_t count;   /* 0 where the text is refused */
    size_t deepest; /* how many containers were open at once */
} plain_rows;

/* The verdict on the bytes from start to end by settings (RFC 8259). Offsets count from byte 0. A mark is looked for at start. */
jx_verdict plain_read(const uint8_t *bytes, size_t start, size_t end, const jx_settings *settings, plain_rows *rows);

/* What a pointer leads to (RFC 6901) in an accepted text with these rows, or in bytes that the verdict refuses. */
jx_answer plain_find(const uint8_t *bytes, const plain_rows *rows, const jx_verdict *verdict, const uint8_t *pointer, size_t size);

/* The elements of a sequence (RFC 7464): writes as many as there is room for, and tells how many there are. */
size_t plain_elements(const uint8_t *bytes, size_t size, const jx_settings *settings, jx_element *elements, size_t room);

/* The lines of JSON Lines that are no texts: writes as many as there is room for, and tells how many there are; counts all. */
size_t plain_lines(const uint8_t *bytes, size_t size, const jx_settings *settings, jx_line *bad, size_t room, jx_line_counts *counts);

/* Writes the tokens of an accepted text one behind another, and tells their size, which is at most the text's. A mark is left out. */
size_t plain_compact(const uint8_t *text, size_t size, uint8_t *form);

/* Writes the names of all that may stand behind the first bytes of a text: `A, B or C`. It tries each byte. Tells their size. */
size_t plain_choices(const uint8_t *text, size_t at, uint32_t flags, char *names, size_t room);

/* The line and the column of an offset. */
jx_place plain_place(const uint8_t *text, size_t at);

/* Writes the values of the array or object that a pointer leads to, each in compact form with a line feed behind it: those that are due of
 * bytes with this verdict. A pointer goes by the first member of each name. Tells how many bytes are written: no more than there are. */
size_t plain_values(const uint8_t *bytes, size_t size, const jx_verdict *verdict, const uint8_t *pointer, size_t pointer_size,
                    uint8_t *lines);

/* What an answer says of a pointer that has to lead to an array or object. */
jx_outcome plain_outcome(const jx_answer *answer, const uint8_t *pointer, size_t size);

/* Writes the pointer that leads to a row, as long as it fits; tells its size. Half of a surrogate pair becomes U+FFFD. */
size_t plain_path(const uint8_t *bytes, const plain_rows *rows, size_t row, uint8_t *pointer, size_t room);

#endif
