#include "runs.h"

#include <stdlib.h>
#include <string.h>

static uint64_t number_at(const uint8_t *bytes) {
    uint64_t value = 0;
    for (int k = 0; k < 8; k++) value = value << 8 | bytes[k];
    return value;
}

static void put_number(uint8_t *to, uint64_t value) {
    for (int k = 0; k < 8; k++) to[k] = (uint8_t)(value >> (56 - 8 * k));
}

/* A part comes twice, or not at all. */
static void splice(input *in, run *r, size_t from, int is_twice) {
    const size_t behind = r->size - from, count = choice_upto(in, behind > 512 ? 512 : behind);
    const size_t size = is_twice ? r->size + count : r->size - count;
    uint8_t *bytes = kept(size);
    memcpy(bytes, r->bytes, from);
    if (is_twice) {
        memcpy(bytes + from, r->bytes + from, count);
        memcpy(bytes + from + count, r->bytes + from, behind);
    } else {
        memcpy(bytes + from, r->bytes + from + count, behind - count);
    }
    free(r->bytes);
    r->bytes = bytes;
    r->size = size;
}

static void forge_number(input *in, uint8_t *at, uint8_t how) {
    static const uint64_t telling[15] = {0, 1, 2, 31, 32, 33, 65535, 65536, 1u << 31, 0xFFFFFFFF, (uint64_t)1 << 32, (uint64_t)1 << 61, (uint64_t)1 << 63, UINT64_MAX - 1, UINT64_MAX};
    if (how < 3) {
        put_number(at, telling[choice(in) % 15]);
    } else {
        put_number(at, how < 5 ? number_at(at) + choice(in) - 128 : choice_of_eight(in));
    }
}

static void forge(input *in, run *r) {
    record read;
    for (int k = choice(in) % 5; k > 0; k--) {
        if (!record_read(r->bytes, r->size, &read) && record_field_count == 0) return;
        const record_field field = record_fields[choice_upto(in, record_field_count - 1)];
        const uint8_t how = choice(in);
        if (how % 8 == 6) {
            splice(in, r, field.at, how & 8);
        } else if (field.size == 8) {
            forge_number(in, r->bytes + field.at, how % 8);
        } else {
            r->bytes[field.at] = how % 2 ? (uint8_t)(r->bytes[field.at] ^ 1) : choice(in) % 40;
        }
        if (how % 16 != 15) record_seal(r->bytes, r->size);
    }
}

void forge_runs(input *in) {
    run left, right;
    in->settings.flags = 0;
    if (in->settings.depth > 64) in->settings.depth = 64;
    const int tell = choice(in) % 2;
    const size_t cut = choice_upto(in, in->size);
    const uint64_t near = choice(in), far = UINT64_MAX - 1 - in->size - near;
    const uint64_t from = !tell ? JX_NO_FROM : choice(in) % 2 ? near : far;
    if (run_of(in, in->text, cut, from, &left) != JX_OK) return;
    if (run_of(in, in->text + cut, in->size - cut, tell ? from + cut : JX_NO_FROM, &right) == JX_OK) {
        forge(in, &left);
        forge(in, &right);
        judge_runs(in, &left, &right);
        free(right.bytes);
    }
    free(left.bytes);
}

void take_any_runs(input *in) {
    const size_t cut = choice_upto(in, in->size);
    run left = run_from(in->text, cut), right = run_from(in->text + cut, in->size - cut);
    const uint8_t seals = choice(in);
    if (seals & 1) record_seal(left.bytes, left.size);
    if (seals & 2) record_seal(right.bytes, right.size);
    judge_runs(in, &left, &right);
    free(left.bytes);
    free(right.bytes);
}
