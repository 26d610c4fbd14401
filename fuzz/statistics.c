#include "statistics.h"
#include "input.h"

#include <stdint.h>
#include <stdio.h>
#include <stdlib.h>
#include <time.h>

typedef struct statistics {
    const char *name;
    uint64_t inputs, calls, slowest;
    size_t size_of_slowest;
    double most_for_a_byte; /* of memory, where 4 KiB or more are given */
} statistics;

static statistics all[TARGETS];
static statistics *counted = &all[0];
static size_t size_of_text;
static uint64_t began;

static uint64_t nanoseconds(void) {
    struct timespec now;
    clock_gettime(CLOCK_THREAD_CPUTIME_ID, &now);
    return (uint64_t)now.tv_sec * 1000000000 + (uint64_t)now.tv_nsec;
}

static void tell(void) {
    for (size_t k = 0; k < TARGETS; k++) {
        const statistics *s = &all[k];
        if (s->inputs == 0) continue;
        fprintf(stderr, "fuzz: %-13s %9llu inputs %10llu calls, slowest %8.3f ms (text of %zu bytes), at most %.1f bytes of memory for a byte\n", s->name,
                (unsigned long long)s->inputs, (unsigned long long)s->calls, (double)s->slowest / 1e6, s->size_of_slowest, s->most_for_a_byte);
    }
}

void statistics_input_begins(size_t target, const char *name, size_t text_size) {
    static int is_told;
    if (!is_told && getenv("FUZZ_STATISTICS") != NULL) atexit(tell);
    is_told = 1;
    counted = &all[target];
    counted->name = name;
    counted->inputs++;
    size_of_text = text_size;
}

void statistics_call_begins(void) { began = nanoseconds(); }

void statistics_call_ends(void) {
    const uint64_t took = nanoseconds() - began;
    counted->calls++;
    if (took <= counted->slowest) return;
    counted->slowest = took;
    counted->size_of_slowest = size_of_text;
}

void statistics_took(size_t bytes, size_t given) {
    const double for_a_byte = given < 4096 ? 0 : (double)bytes / (double)given;
    if (for_a_byte > counted->most_for_a_byte) counted->most_for_a_byte = for_a_byte;
}
