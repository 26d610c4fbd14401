/* The bytes of a saved index, by docs/FORMAT.md. */
#ifndef SAVED_H
#define SAVED_H

#include <stddef.h>
#include <stdint.h>

enum { SAVED_HEAD = 64, SAVED_ENTRY = 24, SAVED_TOP = 32 };

/* How many entries the lowest level has, by the size of a text and a chunk. */
size_t saved_chunks(size_t text_size, size_t chunk);

/* Makes the entries above the lowest level, and the digest of the head, so that they are those of the entries there. The index has
 * more than a head, and just the bytes for so many chunks. */
void saved_seal(uint8_t *index, size_t chunks);

#endif
