// Loaded before the C library: refuses one request for memory of a run, and tells whether it did.
//
// REFUSE_NTH: which request is refused, from 1. REFUSE_TOLD: a file that is made when it is refused.
// Requests are the calls of malloc, calloc and realloc that ask for at least a byte, those of all threads together.
#define _GNU_SOURCE
#include <dlfcn.h>
#include <errno.h>
#include <fcntl.h>
#include <stdatomic.h>
#include <stddef.h>
#include <stdlib.h>
#include <unistd.h>

extern void *__libc_malloc(size_t);
extern void *__libc_calloc(size_t, size_t);
extern void *__libc_realloc(void *, size_t);

static atomic_ulong asked;
static unsigned long refused_one;
static const char *told;

// Before `main`: what the loader asks for is not counted, since a run without it never begins.
__attribute__((constructor)) static void begin(void) {
  const char *nth = getenv("REFUSE_NTH");
  told = getenv("REFUSE_TOLD");
  refused_one = nth ? strtoul(nth, NULL, 10) : 0;
}

static int refuses(size_t bytes) {
  if (refused_one == 0 || bytes == 0 || atomic_fetch_add(&asked, 1) + 1 != refused_one) return 0;
  if (told) {
    int file = open(told, O_WRONLY | O_CREAT, 0600);
    if (file >= 0) close(file);
  }
  errno = ENOMEM;
  return 1;
}

void *malloc(size_t bytes) { return refuses(bytes) ? NULL : __libc_malloc(bytes); }

void *calloc(size_t count, size_t bytes) { return refuses(count && bytes) ? NULL : __libc_calloc(count, bytes); }

void *realloc(void *old, size_t bytes) { return refuses(bytes) ? NULL : __libc_realloc(old, bytes); }
