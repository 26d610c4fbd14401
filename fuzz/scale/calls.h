/* Calls of the library on the shape that was made last. */
#ifndef CALLS_H
#define CALLS_H

#include <stddef.h>

typedef struct call {
    const char *name;
    void (*run)(void);
    double times;    /* how many times as long it may take as a check of the text that is checked slowest */
    size_t fixed;    /* how much memory it may take for any text, */
    double for_each; /* and beside that for each byte of the text */
} call;

extern const call calls[];
extern const size_t call_count;

#endif
