// Loaded before the C library: one read or write of a run fails, or moves a single byte, and it tells whether it did.
//
// FAIL_NTH: which call of read, of read at an offset or of write, from 1. FAIL_HOW: `fail` or `short`. FAIL_TOLD: a file that is made when it does.
// Standard error is left alone: a fault has to be told.
#define _GNU_SOURCE
#include <dlfcn.h>
#include <errno.h>
#include <fcntl.h>
#include <stdatomic.h>
#include <stddef.h>
#include <stdlib.h>
#include <string.h>
#include <unistd.h>
#include <sys/syscall.h>

static atomic_ulong called;
static unsigned long chosen;
static int shortened;
static const char *told;

__attribute__((constructor)) static void begin(void) {
  const char *nth = getenv("FAIL_NTH");
  const char *how = getenv("FAIL_HOW");
  told = getenv("FAIL_TOLD");
  chosen = nth ? strtoul(nth, NULL, 10) : 0;
  shortened = how && strcmp(how, "short") == 0;
}

static int is_chosen(int file) {
  if (chosen == 0 || file == 2 || atomic_fetch_add(&called, 1) + 1 != chosen) return 0;
  if (told) {
    int made = open(told, O_WRONLY | O_CREAT, 0600);
    if (made >= 0) close(made);
  }
  return 1;
}

ssize_t read(int file, void *bytes, size_t count) {
  if (is_chosen(file)) {
    if (!shortened) {
      errno = EIO;
      return -1;
    }
    if (count > 1) count = 1;
  }
  return syscall(SYS_read, file, bytes, count);
}

static ssize_t read_there(int file, void *bytes, size_t count, off_t offset) {
  if (is_chosen(file)) {
    if (!shortened) {
      errno = EIO;
      return -1;
    }
    if (count > 1) count = 1;
  }
  return syscall(SYS_pread64, file, bytes, count, offset);
}

ssize_t pread(int file, void *bytes, size_t count, off_t offset) { return read_there(file, bytes, count, offset); }

ssize_t pread64(int file, void *bytes, size_t count, off_t offset) { return read_there(file, bytes, count, offset); }

static ssize_t write_some(int file, const void *bytes, size_t count) {
  if (is_chosen(file)) {
    if (!shortened) {
      errno = EIO;
      return -1;
    }
    if (count > 1) count = 1;
  }
  return syscall(SYS_write, file, bytes, count);
}

ssize_t write(int file, const void *bytes, size_t count) { return write_some(file, bytes, count); }

ssize_t __write(int file, const void *bytes, size_t count) { return write_some(file, bytes, count); }
