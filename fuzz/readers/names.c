#include "names.h"

#include <stdlib.h>

units units_of_name(const uint8_t *bytes, jx_span name) {
    return (units){bytes + name.start + 1, bytes + name.end - 1, NO_UNIT, 0};
}

units units_of_token(const uint8_t *token, size_t size) { return (units){token, token + size, NO_UNIT, 1}; }

static int hex_of(const uint8_t *digits) {
    int value = 0;
    for (int k = 0; k < 4; k++) value = value * 16 + (digits[k] <= '9' ? digits[k] - '0' : (digits[k] | 0x20) - 'a' + 10);
    return value;
}

static int escaped_unit(units *u) {
    const uint8_t escape = *u->at++;
    switch (escape) {
    case 'b': return 8;
    case 't': return 9;
    case 'n': return 10;
    case 'f': return 12;
    case 'r': return 13;
    case 'u': u->at += 4; return hex_of(u->at - 4);
    default: return escape;
    }
}

int next_unit(units *u) {
    const int low = u->low;
    u->low = NO_UNIT;
    if (low != NO_UNIT) return low;
    if (u->at == u->end) return NO_UNIT;
    const uint8_t byte = *u->at++;
    if (u->is_token && byte == '~') return *u->at++ == '0' ? '~' : '/';
    if (!u->is_token && byte == '\\') return escaped_unit(u);
    if (byte < 0x80) return byte;
    const int more = byte >= 0xF0 ? 3 : byte >= 0xE0 ? 2 : 1;
    uint32_t character = byte & (0x3Fu >> more);
    for (int k = 0; k < more; k++) character = character << 6 | (*u->at++ & 0x3F);
    if (character < 0x10000) return (int)character;
    u->low = (int)(0xDC00 | ((character - 0x10000) & 0x3FF));
    return (int)(0xD800 | (character - 0x10000) >> 10);
}

int are_same(units a, units b) {
    for (;;) {
        const int x = next_unit(&a), y = next_unit(&b);
        if (x != y) return 0;
        if (x == NO_UNIT) return 1;
    }
}

/* Names of one object with one sum stand side by side once they are sorted. */
typedef struct name_key {
    uint64_t sum;
    size_t parent, row;
} name_key;

static int by_parent_and_sum(const void *a, const void *b) {
    const name_key *x = a, *y = b;
    if (x->parent != y->parent) return x->parent < y->parent ? -1 : 1;
    if (x->sum != y->sum) return x->sum < y->sum ? -1 : 1;
    return x->row < y->row ? -1 : x->row > y->row;
}

static int have_same_sum(const name_key *a, const name_key *b) { return a->parent == b->parent && a->sum == b->sum; }

static uint64_t sum_of(units u) {
    uint64_t sum = 14695981039346656037u;
    for (int unit = next_unit(&u); unit != NO_UNIT; unit = next_unit(&u)) sum = (sum ^ (uint64_t)unit) * 1099511628211u;
    return sum;
}

static name_key *sorted_names(const uint8_t *bytes, const plain_rows *rows, size_t *count) {
    static name_key *keys;
    static size_t room;
    *count = 0;
    if (room < rows->count) {
        room = 2 * rows->count;
        keys = realloc(keys, room * sizeof *keys);
        if (keys == NULL) abort();
    }
    for (size_t r = 1; r < rows->count; r++) {
        const jx_row *row = &rows->all[r];
        if (row->name.end > 0) keys[(*count)++] = (name_key){sum_of(units_of_name(bytes, row->name)), row->parent, r};
    }
    if (*count > 0) qsort(keys, *count, sizeof *keys, by_parent_and_sum);
    return keys;
}

size_t first_repeated(const uint8_t *bytes, const plain_rows *rows) {
    size_t count, least = SIZE_MAX;
    const name_key *keys = sorted_names(bytes, rows, &count);
    for (size_t k = 1; k < count; k++) {
        const jx_span name = rows->all[keys[k].row].name;
        for (size_t j = k; name.start < least && j > 0 && have_same_sum(&keys[j - 1], &keys[k]); j--) {
            const jx_span earlier = rows->all[keys[j - 1].row].name;
            if (are_same(units_of_name(bytes, earlier), units_of_name(bytes, name))) least = name.start;
        }
    }
    return least;
}
