/* The requests for memory that the library makes, and how long and how much each call took. Linked with --wrap for malloc, realloc and
 * free. */
#include "harness.h"
#include "statistics.h"

#include <malloc.h>
#include <stdio.h>
#include <stdlib.h>

void *__real_malloc(size_t size);
void *__real_realloc(void *block, size_t size);
void __real_free(void *block);
void *__wrap_malloc(size_t size);
void *__wrap_realloc(void *block, size_t size);
void __wrap_free(void *block);

static struct {
    int is_inside; /* whether a call of the library runs */
    long granted;
    int was_refused;
    size_t requests, blocks, bytes, most;
} memory;

static int is_refused(void) {
    memory.requests++;
    if (memory.granted < 0 || memory.granted-- > 0) return 0;
    memory.was_refused = 1;
    return 1;
}

static void *given(void *block) {
    if (block == NULL) return NULL;
    memory.blocks++;
    memory.bytes += malloc_usable_size(block);
    if (memory.bytes > memory.most) memory.most = memory.bytes;
    return block;
}

static void taken_back(void *block) {
    if (block == NULL) return;
    memory.blocks--;
    memory.bytes -= malloc_usable_size(block);
}

void *__wrap_malloc(size_t size) {
    if (!memory.is_inside) return __real_malloc(size);
    return is_refused() ? NULL : given(__real_malloc(size));
}

void *__wrap_realloc(void *block, size_t size) {
    if (!memory.is_inside) return __real_realloc(block, size);
    if (is_refused()) return NULL;
    taken_back(block);
    void *moved = __real_realloc(block, size);
    if (moved == NULL) given(block);
    return given(moved);
}

void __wrap_free(void *block) {
    if (memory.is_inside) taken_back(block);
    __real_free(block);
}

void library_enter(long granted) {
    memory.granted = granted;
    memory.was_refused = 0;
    memory.requests = 0;
    memory.most = memory.bytes;
    memory.is_inside = 1;
    statistics_call_begins();
}

void library_leave(void) {
    memory.is_inside = 0;
    statistics_call_ends();
}

int library_was_refused(void) { return memory.was_refused; }
size_t library_requests(void) { return memory.requests; }
size_t library_blocks(void) { return memory.blocks; }
size_t library_bytes(void) { return memory.bytes; }
size_t library_most(void) { return memory.most; }

enum { FIXED = 256 << 10 };

void require_bounded(size_t held, size_t given_to, size_t for_each, const char *what) {
    const size_t taken = memory.most - held;
    statistics_took(taken, given_to);
    if (taken > FIXED + for_each * given_to) fprintf(stderr, "fuzz: %zu bytes of memory for %zu bytes\n", taken, given_to);
    REQUIRE(taken <= FIXED + for_each * given_to, what);
}

void *kept(size_t size) {
    void *block = __real_malloc(size == 0 ? 1 : size);
    if (block == NULL) abort();
    return block;
}
