/* The pointer that leads to a row. */
#include "names.h"
#include "plain.h"

typedef struct path {
    uint8_t *bytes;
    size_t size, room;
} path;

static void put(path *p, uint32_t byte) {
    if (p->size < p->room) p->bytes[p->size++] = (uint8_t)byte;
}

static void put_character(path *p, uint32_t character) {
    static const uint8_t leads[] = {0, 0xC0, 0xE0, 0xF0};
    if (character == '~' || character == '/') {
        put(p, '~');
        put(p, character == '~' ? '0' : '1');
    } else if (character < 0x80) {
        put(p, character);
    } else {
        const uint32_t more = character < 0x800 ? 1 : character < 0x10000 ? 2 : 3;
        put(p, leads[more] | character >> (6 * more));
        for (uint32_t k = more; k > 0; k--) put(p, 0x80 | (character >> (6 * (k - 1)) & 0x3F));
    }
}

static void put_place(path *p, size_t place) {
    uint8_t digits[24];
    size_t count = 0;
    do {
        digits[count++] = (uint8_t)('0' + place % 10);
        place /= 10;
    } while (place > 0);
    while (count > 0) put(p, digits[--count]);
}

static void put_name(path *p, units u) {
    for (int unit = next_unit(&u); unit != NO_UNIT; unit = next_unit(&u)) {
        uint32_t character = (uint32_t)unit;
        units ahead = u;
        const int low = next_unit(&ahead);
        if (unit >= 0xD800 && unit <= 0xDBFF && low >= 0xDC00 && low <= 0xDFFF) {
            u = ahead;
            character = 0x10000 + ((character & 0x3FF) << 10) + ((uint32_t)low & 0x3FF);
        }
        put_character(p, character >= 0xD800 && character <= 0xDFFF ? 0xFFFD : character);
    }
}

size_t plain_path(const uint8_t *bytes, const plain_rows *rows, size_t row, uint8_t *pointer, size_t room) {
    const jx_row *r = &rows->all[row];
    if (r->parent == SIZE_MAX) return 0;
    path p = {pointer, plain_path(bytes, rows, r->parent, pointer, room), room};
    put(&p, '/');
    if (r->name.end == 0) {
        put_place(&p, r->place);
    } else {
        put_name(&p, units_of_name(bytes, r->name));
    }
    return p.size;
}
