#include "harness.h"

#include <stdlib.h>
#include <string.h>

enum { DOCUMENT = 7 }; /* the one target that takes larger texts */

uint8_t choice(input *in) { return in->choices < in->end ? *in->choices++ : 0; }

static size_t choice_of_two(input *in) {
    const size_t high = choice(in);
    return high << 8 | choice(in);
}

size_t choice_upto(input *in, size_t most) {
    if (most < 256) return choice(in) % (most + 1);
    const size_t two = choice_of_two(in);
    return most < 65536 ? two % (most + 1) : (two << 8 | choice(in)) % (most + 1);
}

uint64_t choice_of_eight(input *in) {
    uint64_t value = 0;
    for (int k = 0; k < 8; k++) value = value << 8 | choice(in);
    return value;
}

static uint64_t dice_state;

void dice_start(uint64_t state) { dice_state = state; }

size_t dice(size_t limit) {
    dice_state ^= dice_state << 13;
    dice_state ^= dice_state >> 7;
    dice_state ^= dice_state << 17;
    return limit == 0 ? 0 : (size_t)(dice_state % limit);
}

uint8_t *kept_copy(const uint8_t *bytes, size_t size) {
    uint8_t *copy = kept(size);
    if (size > 0) memcpy(copy, bytes, size);
    return copy;
}

/* Repeats a part of the text some times, if there is room; tells the new size. Copies may have other capital letters, so that an object
 * comes to many names. */
static size_t repeat(input *in, uint8_t *text, size_t size, size_t most) {
    const size_t start = choice_upto(in, size), count = choice_upto(in, size - start);
    const uint8_t how = choice(in);
    size_t copies = (size_t)1 << how % 14;
    if (count == 0 || size + count > most) return size;
    if (copies > (most - size) / count) copies = (most - size) / count;
    memmove(text + start + copies * count, text + start, size - start);
    dice_start(how + 1u);
    for (size_t k = 0; k < copies * count; k++) {
        const uint8_t byte = text[start + copies * count + k % count];
        const int is_other = how & 0x80 && byte >= 'A' && byte <= 'Z';
        text[start + k] = is_other ? (uint8_t)('A' + dice(26)) : byte;
    }
    return size + copies * count;
}

/* The text of an input, with some parts repeated, so that short inputs come to long and deep texts. */
static void make_text(input *in, const uint8_t *text, size_t size, int repeats, size_t most) {
    static uint8_t long_text[MOST_DOCUMENT];
    if (size > most) size = most;
    memcpy(long_text, text, size);
    while (repeats-- > 0) size = repeat(in, long_text, size, most);
    in->text = kept_copy(long_text, size);
    in->size = size;
}

size_t input_of(input *in, const uint8_t *data, size_t size) {
    static const uint32_t depths[DEPTHS + 1] = {JX_DEPTH_DEFAULT, 0, 1, 2, 3, JX_DEPTH_MAX, 64, 9};
    const size_t target = data[0] % TARGETS;
    const uint8_t how = data[1];
    const size_t choices = data[2] < size - HEAD ? data[2] : size - HEAD;
    const uint8_t *text = data + HEAD + choices;
    *in = (input){data + HEAD, text, NULL, 0, {depths[how >> DEPTH_SHIFT & DEPTHS], how & FLAGS}, -1};
    if (how & IS_SHORT_OF_MEMORY) in->granted = choice(in) % 64;
    const int repeats = (how & REPEATS) == REPEATS ? 1 + choice(in) % 3 : 0;
    make_text(in, text, size - HEAD - choices, repeats, target == DOCUMENT && how & IS_LARGE ? MOST_DOCUMENT : MOST_TEXT);
    return target;
}
