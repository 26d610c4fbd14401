/* What is told of each target at the end, where FUZZ_STATISTICS is set. */
#ifndef STATISTICS_H
#define STATISTICS_H

#include <stddef.h>

void statistics_input_begins(size_t target, const char *name, size_t text_size);
void statistics_call_begins(void);
void statistics_call_ends(void);
void statistics_took(size_t bytes, size_t given);

#endif
