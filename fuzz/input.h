/* The form of an input: a target, settings, N, then N bytes of choices, then the text. Nothing else is random, so an input that failed
 * fails again. */
#ifndef INPUT_H
#define INPUT_H

enum { TARGETS = 17, HEAD = 3 };

/* The byte of settings: two bits of flags, three that choose a depth, one for refused memory, two for parts that are repeated. */
enum { FLAGS = 3, DEPTHS = 7, DEPTH_SHIFT = 2, IS_SHORT_OF_MEMORY = 0x20, REPEATS = 0xC0, IS_LARGE = 0x10 };

#endif
