/* Hostile texts: each is the worst that is known for some call. */
#ifndef SHAPES_H
#define SHAPES_H

#include <stddef.h>

typedef struct shape {
    const char *name;
    void (*fill)(size_t goal); /* makes a text of about so many bytes */
} shape;

extern const shape shapes[];
extern const size_t shape_count;

/* The text that was made last. */
extern char *shape_text;
extern size_t shape_size;

/* Room for texts of so many bytes. */
void shape_room(size_t most);

#endif
