/* Which bytes may stand behind a beginning of a text, found by trying each of them, and the sentence that says so. */
#include "plain.h"

#include <stdio.h>
#include <stdlib.h>
#include <string.h>

/* What may stand at a place: its name, bytes that all may stand there, and some that may not, since with them more is meant. */
static const struct {
    const char *name, *those, *others;
} choices[] = {
    {"a character in UTF-8", "z[", ""},
    {"one of \" \\ / b f n r t u", "/b", "z"},
    {"a hexadecimal digit", "Aa", "z"},
    {"a byte from 80 to BF", "\x80\xBF", ""},
    {"a byte from 80 to 8F", "\x80", "\x90"},
    {"a byte from 80 to 9F", "\x80\x90", "\xBF"},
    {"a byte from 90 to BF", "\x90\xBF", "\x80"},
    {"a byte from A0 to BF", "\xBF", "\x90"},
    {"a digit", "0", "[A"},
    {"a sign", "+", "z"},
    {"a decimal point", ".", "z"},
    {"an exponent", "eE", "A"},
    {"a", "a", "A"},
    {"e", "e", "E"},
    {"l", "l", "z"},
    {"r", "r", "b"},
    {"s", "s", "z"},
    {"u", "u", "b"},
    {"a value", "[", "z"},
    {"a string", "\"", "[/"},
    {"a colon", ":", "z"},
    {"a comma", ",", "z"},
    {"]", "]", "z"},
    {"}", "}", "z"},
};
enum { CHOICES = sizeof choices / sizeof *choices };

/* Whether a text of some depth goes on with each of the bytes. */
static void try_all(const uint8_t *text, size_t at, uint32_t flags, uint8_t goes_on[256]) {
    const jx_settings deep = {JX_DEPTH_MAX, flags & JX_IGNORE_MARK};
    plain_rows rows;
    uint8_t *trial = malloc(at + 1);
    if (trial == NULL) abort();
    memcpy(trial, text, at);
    for (unsigned byte = 0; byte < 256; byte++) {
        trial[at] = (uint8_t)byte;
        goes_on[byte] = plain_read(trial, 0, at + 1, &deep, &rows).kind != JX_STOPPED;
    }
    free(trial);
}

static int is_meant(size_t choice, const uint8_t goes_on[256]) {
    for (const char *byte = choices[choice].those; *byte != 0; byte++) {
        if (!goes_on[(uint8_t)*byte]) return 0;
    }
    for (const char *byte = choices[choice].others; *byte != 0; byte++) {
        if (goes_on[(uint8_t)*byte]) return 0;
    }
    return 1;
}

size_t plain_choices(const uint8_t *text, size_t at, uint32_t flags, char *names, size_t room) {
    uint8_t goes_on[256];
    size_t count = 0, size = 0, meant[CHOICES];
    try_all(text, at, flags, goes_on);
    for (size_t choice = 0; choice < CHOICES; choice++) {
        if (is_meant(choice, goes_on)) meant[count++] = choice;
    }
    for (size_t k = 0; k < count; k++) {
        const char *const behind = k + 1 == count ? "" : k + 2 == count ? " or " : ", ";
        size += (size_t)snprintf(names + size, room - size, "%s%s", choices[meant[k]].name, behind);
    }
    return count == 0 ? (size_t)snprintf(names, room, "the end of the text") : size;
}

jx_place plain_place(const uint8_t *text, size_t at) {
    jx_place place = {1, 1};
    for (size_t each = 0; each < at; each++) {
        if (text[each] == '\n') {
            place = (jx_place){place.line + 1, 1};
        } else if ((text[each] & 0xC0) != 0x80) {
            place.column++;
        }
    }
    return place;
}
