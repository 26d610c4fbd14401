#include "pointers.h"

#include <stdlib.h>
#include <string.h>

enum { FEW = 24, MOST_BYTES = 4096 };

static size_t put_behind(input *in, uint8_t *pointer, size_t size) {
    static const char *const behind[16] = {"/",   "/-",  "/0",  "/01",      "/1",   "/a",                    "~",                     "/~0",
                                           "/~1", "/~2", "/\xC3\xA9", "\xC3", "//", "/18446744073709551616", "/18446744073709551615", "0"};
    const char *more = behind[choice(in) % 16];
    memcpy(pointer + size, more, strlen(more));
    return size + strlen(more);
}

static jx_pointer make_pointer(input *in, const plain_rows *rows) {
    static uint8_t pointer[MOST_BYTES + 64];
    const uint8_t how = choice(in);
    size_t size = 0;
    if (how & 1 && rows->count > 0 && rows->deepest < 1000) size = plain_path(in->text, rows, choice_upto(in, rows->count - 1), pointer, MOST_BYTES);
    if (how & 2) size = put_behind(in, pointer, size);
    for (int n = how & 4 ? choice(in) % 16 : 0; n > 0; n--) pointer[size++] = choice(in);
    if (how & 8 && size > 0) pointer[choice_upto(in, size - 1)] = choice(in);
    return (jx_pointer){kept_copy(pointer, size), size};
}

void make_pointers(input *in, const plain_rows *rows, pointers *p) {
    p->count = 1 + choice(in) % FEW;
    for (size_t k = 0; k < p->count; k++) p->all[k] = make_pointer(in, rows);
}

void make_more_pointers(input *in, const plain_rows *rows, pointers *p, size_t more) {
    const size_t count = p->count + more;
    if (rows->count == 0 || rows->count > 4000 || rows->deepest > 100) return;
    dice_start(count);
    for (; p->count < count && p->count < MOST_POINTERS; p->count++) {
        uint8_t *bytes = kept(MOST_BYTES);
        const size_t size = plain_path(in->text, rows, dice(rows->count), bytes, MOST_BYTES);
        if (size > 0 && dice(8) == 0) bytes[size - 1] = (uint8_t)('A' + dice(26));
        p->all[p->count] = (jx_pointer){bytes, size};
    }
}

void free_pointers(pointers *p) {
    for (size_t k = 0; k < p->count; k++) free((void *)p->all[k].bytes);
}
