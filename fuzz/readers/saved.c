#include "saved.h"

#include "xxh64.h"

#include <string.h>

size_t saved_chunks(size_t text_size, size_t chunk) { return text_size / chunk + (text_size % chunk != 0); }

static uint64_t number_at(const uint8_t *bytes, int size) {
    uint64_t value = 0;
    for (int k = size; k-- > 0;) value = value << 8 | bytes[k];
    return value;
}

static void put_number(uint8_t *to, uint64_t value, int size) {
    for (int k = 0; k < size; k++) to[k] = (uint8_t)(value >> 8 * k);
}

/* Takes an entry in behind a sum. State and expectation stay those in front; flags are those of either. */
static void take_in(uint8_t *sum, const uint8_t *entry) {
    const uint64_t left_opened = number_at(sum + 2, 2), closed = number_at(entry, 2), opened = number_at(entry + 2, 2);
    const uint64_t commas = number_at(sum + 8, 8), more = number_at(entry + 8, 8);
    if (closed < left_opened) {
        put_number(sum + 2, left_opened - closed + opened, 2);
    } else {
        if (closed > left_opened) put_number(sum, number_at(sum, 2) + closed - left_opened, 2);
        put_number(sum + 2, opened, 2);
        put_number(sum + 8, closed > left_opened ? more : commas + more, 8);
    }
    sum[6] |= entry[6];
}

/* Writes the entry of those below. */
static void sum_of(const uint8_t *below, size_t count, uint8_t *sum) {
    memcpy(sum, below, SAVED_ENTRY);
    for (size_t k = 1; k < count; k++) take_in(sum, below + k * SAVED_ENTRY);
    put_number(sum + 16, xxh64(below, count * SAVED_ENTRY), 8);
}

void saved_seal(uint8_t *index, size_t chunks) {
    uint8_t *level = index + SAVED_HEAD;
    for (size_t count = chunks; count > 1; count = (count + 63) / 64) {
        uint8_t *above = count <= 64 ? index + SAVED_TOP : level + count * SAVED_ENTRY;
        for (size_t at = 0; at < count; at += 64) {
            sum_of(level + at * SAVED_ENTRY, count - at < 64 ? count - at : 64, above + at / 64 * SAVED_ENTRY);
        }
        level = above;
    }
    put_number(index + 56, xxh64(index, 56), 8);
}
