/* Mutations that know what a text is, beside those of libFuzzer. */
#include "harness.h"

#include <stdio.h>
#include <string.h>

size_t LLVMFuzzerMutate(uint8_t *data, size_t size, size_t most);
size_t LLVMFuzzerCustomMutator(uint8_t *data, size_t size, size_t most, unsigned seed);

static const char *const words[] = {
    "0", "-0", "1.5", "1e9", "-1E+2", "0.0e-0", "true", "false", "null", "\"\"", "\"a\"", "\"\\u0061\"", "\"\\ud83d\\ude00\"",
    "\"\xF0\x9F\x98\x80\"", "\"\\ud800\"", "\"\xC3\xA9\"", "\"\xE0\xA0\x80\"", "\"\xED\x9F\xBF\"", "\"\xF4\x8F\xBF\xBF\"", "\"\\\\\"",
    "\"\\\"\"", "\"\\/\"", "[]", "{}", "[[]]", "{\"a\":{}}", "\"a\":1,", ",\"a\":2", ",1", "[", "]", "{", "}", ":", ",", " ", "\n", "\t",
    "\x1E", "\xEF\xBB\xBF", "\\", "\"", "\\u", "\xED\xA0\x80", "\xC0\x80", "\xF4\x90\x80\x80", "\xFF", "\x1F", "\x7F", "\"~\":1,",
    "\"/\":1,", "\"01\":1,", "\"-\":1,", "\"\":1,",
};

typedef struct bytes {
    uint8_t *data;
    size_t size, most;
} bytes;

/* Puts bytes in the place of those from start to end, if there is room. */
static int splice(bytes *b, size_t start, size_t end, const void *put, size_t count) {
    static uint8_t copy[1 << 16];
    if (b->size - (end - start) + count > b->most || count > sizeof copy) return 0;
    if (count > 0) memcpy(copy, put, count);
    memmove(b->data + start + count, b->data + end, b->size - end);
    memcpy(b->data + start, copy, count);
    b->size = b->size - (end - start) + count;
    return 1;
}

static void enclose(bytes *b, size_t start, size_t end) {
    const int is_array = (int)dice(2);
    const char *open = is_array ? "[" : "{\"a\":";
    if (splice(b, end, end, is_array ? "]" : "}", 1)) splice(b, start, start, open, strlen(open));
}

static void spell_out(bytes *b, size_t at) {
    char escaped[8];
    if (at >= b->size) return;
    snprintf(escaped, sizeof escaped, "\\u%04x", b->data[at]);
    splice(b, at, at + 1, escaped, 6);
}

static size_t no_more(size_t a, size_t b) { return a < b ? a : b; }

static void mutate(bytes *b, size_t from) {
    const size_t start = from + dice(b->size - from + 1), left = b->size - start;
    const size_t end = start + dice((dice(4) > 0 ? no_more(left, 8) : left) + 1);
    const char *word = words[dice(sizeof words / sizeof words[0])];
    switch (dice(6)) {
    case 0: splice(b, start, end, NULL, 0); break;
    case 1: splice(b, start, start, b->data + start, end - start); break;
    case 2: enclose(b, start, end); break;
    case 3: spell_out(b, start); break;
    default: splice(b, start, dice(2) > 0 ? start : end, word, strlen(word)); break;
    }
}

size_t LLVMFuzzerCustomMutator(uint8_t *data, size_t size, size_t most, unsigned seed) {
    dice_start(seed * 0x9E3779B97F4A7C15u + 1);
    for (int k = 0; k < 4; k++) dice(1);
    if (size < HEAD || dice(2) == 0) return LLVMFuzzerMutate(data, size, most);
    if (dice(16) == 0) {
        data[0] = (uint8_t)dice(TARGETS);
        return size;
    }
    bytes b = {data, size, most};
    const size_t text = HEAD + no_more(data[2], size - HEAD);
    for (size_t times = 1 + dice(3); times > 0; times--) mutate(&b, text);
    return b.size;
}
