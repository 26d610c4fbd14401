#include "tokens.h"

int is_digit(uint8_t byte) { return byte >= '0' && byte <= '9'; }

static int is_hex(uint8_t byte) { return is_digit(byte) || (byte >= 'a' && byte <= 'f') || (byte >= 'A' && byte <= 'F'); }

void blanks(const uint8_t *text, size_t end, size_t *at) {
    while (*at < end && (text[*at] == ' ' || text[*at] == '\t' || text[*at] == '\n' || text[*at] == '\r')) ++*at;
}

static int digits(const uint8_t *text, size_t end, size_t *at) {
    if (*at == end || !is_digit(text[*at])) return 0;
    while (*at < end && is_digit(text[*at])) ++*at;
    return 1;
}

int number(const uint8_t *text, size_t end, size_t *at) {
    if (text[*at] == '-') ++*at;
    if (*at < end && text[*at] == '0') {
        ++*at;
    } else if (!digits(text, end, at)) {
        return 0;
    }
    if (*at < end && text[*at] == '.') {
        ++*at;
        if (!digits(text, end, at)) return 0;
    }
    if (*at < end && (text[*at] == 'e' || text[*at] == 'E')) {
        ++*at;
        if (*at < end && (text[*at] == '+' || text[*at] == '-')) ++*at;
        if (!digits(text, end, at)) return 0;
    }
    return 1;
}

int literal(const uint8_t *text, size_t end, size_t *at, const char *word) {
    for (; *word; word++, ++*at) {
        if (*at == end || text[*at] != (uint8_t)*word) return 0;
    }
    return 1;
}

/* A character of two bytes or more: the lines of UTF8-2, UTF8-3 and UTF8-4 in RFC 3629, section 4. */
static int long_character(const uint8_t *text, size_t end, size_t *at) {
    static const struct {
        uint8_t first, last, low, high, more;
    } lines[] = {
        {0xC2, 0xDF, 0x80, 0xBF, 0}, {0xE0, 0xE0, 0xA0, 0xBF, 1}, {0xE1, 0xEC, 0x80, 0xBF, 1}, {0xED, 0xED, 0x80, 0x9F, 1},
        {0xEE, 0xEF, 0x80, 0xBF, 1}, {0xF0, 0xF0, 0x90, 0xBF, 2}, {0xF1, 0xF3, 0x80, 0xBF, 2}, {0xF4, 0xF4, 0x80, 0x8F, 2},
    };
    for (size_t k = 0; k < sizeof lines / sizeof lines[0]; k++) {
        if (text[*at] < lines[k].first || text[*at] > lines[k].last) continue;
        ++*at;
        if (*at == end || text[*at] < lines[k].low || text[*at] > lines[k].high) return 0;
        ++*at;
        for (int more = lines[k].more; more > 0; more--, ++*at) {
            if (*at == end || text[*at] < 0x80 || text[*at] > 0xBF) return 0;
        }
        return 1;
    }
    return 0;
}

static int escape(const uint8_t *text, size_t end, size_t *at) {
    ++*at;
    if (*at == end) return 0;
    switch (text[*at]) {
    case '"': case '\\': case '/': case 'b': case 'f': case 'n': case 'r': case 't':
        ++*at;
        return 1;
    case 'u':
        ++*at;
        for (int k = 0; k < 4; k++, ++*at) {
            if (*at == end || !is_hex(text[*at])) return 0;
        }
        return 1;
    default:
        return 0;
    }
}

int string(const uint8_t *text, size_t end, size_t *at) {
    ++*at;
    for (;;) {
        if (*at == end) return 0;
        if (text[*at] == '"') {
            ++*at;
            return 1;
        }
        if (text[*at] == '\\') {
            if (!escape(text, end, at)) return 0;
        } else if (text[*at] >= 0x80) {
            if (!long_character(text, end, at)) return 0;
        } else if (text[*at] >= 0x20) {
            ++*at;
        } else {
            return 0;
        }
    }
}
