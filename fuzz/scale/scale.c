/* Tells which calls take more than their share of a hostile text in time or memory: scale [MB]. Each shape is read at an eighth of this
 * size and at all of it, 8 MB if it is left out. A line is marked where the call takes more than its share, or more than three times as
 * long for each byte of the larger text; then the program ends with status 1. */
#include "../harness.h"
#include "calls.h"
#include "shapes.h"

#include <stdio.h>
#include <stdlib.h>
#include <time.h>

enum { TIMES = 8, STEEPER = 3, MOST_CALLS = 32 };

/* A shorter time tells nothing. */
static const double least_milliseconds = 50;

typedef struct cost {
    double milliseconds;
    size_t bytes;
} cost;

void wrong(const char *what, const char *file, int line) {
    fprintf(stderr, "scale: WRONG: %s (%s:%d)\n", what, file, line);
    exit(2);
}

static double milliseconds(void) {
    struct timespec now;
    clock_gettime(CLOCK_THREAD_CPUTIME_ID, &now);
    return (double)now.tv_sec * 1e3 + (double)now.tv_nsec / 1e6;
}

static cost cost_of(const call *c) {
    const double began = milliseconds();
    library_enter(-1);
    c->run();
    library_leave();
    return (cost){milliseconds() - began, library_most()};
}

/* The least of some times: other work may get in the way. */
static cost least_cost_of(const call *c) {
    cost least = cost_of(c);
    for (int k = 0; k < 2; k++) {
        const cost again = cost_of(c);
        if (again.milliseconds < least.milliseconds) least = again;
    }
    return least;
}

/* How long the slowest check takes. */
static double slowest_check(size_t goal) {
    double slowest = 0;
    for (size_t s = 0; s < shape_count; s++) {
        shapes[s].fill(goal);
        const double took = least_cost_of(&calls[0]).milliseconds;
        if (took > slowest) slowest = took;
    }
    return slowest;
}

/* Whether the call keeps to its share; tells what it took. */
static int judge(const shape *s, const call *c, cost little, cost large, double slowest) {
    const double size = (double)shape_size, bytes = (double)large.bytes, times = large.milliseconds / slowest;
    const int is_long = large.milliseconds > least_milliseconds;
    const int is_slow = is_long && times > c->times;
    const int is_steep = is_long && large.milliseconds > STEEPER * TIMES * (little.milliseconds + 0.5);
    const int is_large = bytes > (double)c->fixed + c->for_each * size;
    printf("%-16s %-20s %9.2f ms, %5.2f times the slowest check, %6.1f KiB, %5.1f bytes for a byte%s%s%s\n", s->name, c->name, large.milliseconds, times, bytes / 1024,
           bytes / size, is_slow ? " ** SLOW" : "", is_steep ? " ** STEEP" : "", is_large ? " ** LARGE" : "");
    return !is_slow && !is_steep && !is_large;
}

int main(int count, char **words) {
    const size_t goal = (size_t)(count > 1 ? atoi(words[1]) : 8) << 20;
    int passed = 0, failed = 0;
    cost little[MOST_CALLS];
    REQUIRE(goal > 0 && call_count <= MOST_CALLS, "a size, and not too many calls");
    shape_room(goal);
    const double slowest = slowest_check(goal);
    for (size_t s = 0; s < shape_count; s++) {
        shapes[s].fill(goal / TIMES);
        for (size_t c = 0; c < call_count; c++) little[c] = cost_of(&calls[c]);
        shapes[s].fill(goal);
        for (size_t c = 0; c < call_count; c++) {
            if (judge(&shapes[s], &calls[c], little[c], least_cost_of(&calls[c]), slowest)) passed++;
            else failed++;
        }
    }
    printf("scale: %.2f ns for each byte of the slowest check; %d passed, %d failed\n", slowest * 1e6 / (double)goal, passed, failed);
    return failed != 0;
}
