/* The XXH64 of bytes, with the seed 0. */
#ifndef XXH64_H
#define XXH64_H

#include <stddef.h>
#include <stdint.h>

uint64_t xxh64(const uint8_t *bytes, size_t size);

#endif
