/* The tokens of a text, one behind another (RFC 8259, section 2). */
#include "plain.h"
#include "tokens.h"

#include <string.h>

static void token(const uint8_t *text, size_t end, size_t *at) {
    switch (text[*at]) {
    case '"':
        string(text, end, at);
        break;
    case 't':
        literal(text, end, at, "true");
        break;
    case 'f':
        literal(text, end, at, "false");
        break;
    case 'n':
        literal(text, end, at, "null");
        break;
    case '[': case ']': case '{': case '}': case ':': case ',':
        ++*at;
        break;
    default:
        number(text, end, at);
    }
}

size_t plain_compact(const uint8_t *text, size_t size, uint8_t *form) {
    size_t count = 0, at = size >= 3 && memcmp(text, "\xEF\xBB\xBF", 3) == 0 ? 3 : 0;
    for (blanks(text, size, &at); at < size; blanks(text, size, &at)) {
        const size_t start = at;
        token(text, size, &at);
        memcpy(form + count, text + start, at - start);
        count += at - start;
    }
    return count;
}
