#include "xxh64.h"

static const uint64_t primes[5] = {0x9E3779B185EBCA87, 0xC2B2AE3D27D4EB4F, 0x165667B19E3779F9, 0x85EBCA77C2B2AE63, 0x27D4EB2F165667C5};

static uint64_t turned(uint64_t word, int by) { return word << by | word >> (64 - by); }

static uint64_t word_at(const uint8_t *bytes, int size) {
    uint64_t word = 0;
    for (int k = size; k-- > 0;) word = word << 8 | bytes[k];
    return word;
}

static uint64_t step(uint64_t lane, uint64_t word) { return turned(lane + word * primes[1], 31) * primes[0]; }

/* The lanes behind all whole stripes of 32 bytes, as one word. */
static uint64_t of_stripes(const uint8_t *bytes, size_t count) {
    uint64_t lanes[4] = {primes[0] + primes[1], primes[1], 0, 0 - primes[0]};
    for (size_t at = 0; at < 4 * count; at++) lanes[at % 4] = step(lanes[at % 4], word_at(bytes + 8 * at, 8));
    uint64_t sum = turned(lanes[0], 1) + turned(lanes[1], 7) + turned(lanes[2], 12) + turned(lanes[3], 18);
    for (int k = 0; k < 4; k++) sum = (sum ^ step(0, lanes[k])) * primes[0] + primes[3];
    return sum;
}

uint64_t xxh64(const uint8_t *bytes, size_t size) {
    size_t at = size / 32 * 32;
    uint64_t sum = (at > 0 ? of_stripes(bytes, at / 32) : primes[4]) + size;
    for (; size - at >= 8; at += 8) sum = turned(sum ^ step(0, word_at(bytes + at, 8)), 27) * primes[0] + primes[3];
    for (; size - at >= 4; at += 4) sum = turned(sum ^ word_at(bytes + at, 4) * primes[0], 23) * primes[1] + primes[2];
    for (; at < size; at++) sum = turned(sum ^ bytes[at] * primes[4], 11) * primes[0];
    sum = (sum ^ sum >> 33) * primes[1];
    sum = (sum ^ sum >> 29) * primes[2];
    return sum ^ sum >> 32;
}
