/* Pointers (RFC 6901, sections 3 and 4). */
#include "names.h"
#include "plain.h"
#include "tokens.h"

static const size_t NO_ROW = SIZE_MAX;

/* Decodes, where the reader of texts compares with the lines of RFC 3629. */
static int is_utf8(const uint8_t *bytes, size_t size) {
    static const uint32_t least[] = {0, 0x80, 0x800, 0x10000};
    for (size_t i = 0; i < size;) {
        const uint8_t lead = bytes[i];
        const size_t more = lead < 0x80 ? 0 : lead >= 0xF8 ? SIZE_MAX : lead >= 0xF0 ? 3 : lead >= 0xE0 ? 2 : lead >= 0xC0 ? 1 : SIZE_MAX;
        if (more > size - i - 1) return 0;
        uint32_t character = more == 0 ? lead : lead & (0x3Fu >> more);
        for (size_t k = 1; k <= more; k++) {
            if ((bytes[i + k] & 0xC0) != 0x80) return 0;
            character = character << 6 | (bytes[i + k] & 0x3F);
        }
        if (character < least[more] || character > 0x10FFFF || (character >= 0xD800 && character <= 0xDFFF)) return 0;
        i += more + 1;
    }
    return 1;
}

static jx_answer lost(uint32_t outcome, size_t at) { return (jx_answer){{0, 0}, at, outcome, 0}; }

/* Whether a token is an index, and which place it names: SIZE_MAX if that is greater than any. */
static int is_index(const uint8_t *token, size_t size, size_t *place) {
    if (size == 0 || (token[0] == '0' && size > 1)) return 0;
    *place = 0;
    for (size_t i = 0; i < size; i++) {
        if (!is_digit(token[i])) return 0;
        *place = *place > (SIZE_MAX - 9) / 10 ? SIZE_MAX : *place * 10 + (size_t)(token[i] - '0');
    }
    return 1;
}

static jx_answer refused(const jx_verdict *verdict) {
    switch (verdict->kind) {
    case JX_STOPPED: return lost(JX_TEXT_STOPPED, verdict->offset);
    case JX_TRUNCATED: return lost(JX_TEXT_TRUNCATED, 0);
    case JX_TOO_DEEP: return lost(JX_TEXT_TOO_DEEP, verdict->offset);
    default: return lost(JX_TEXT_REPEATED_NAME, verdict->offset);
    }
}

/* The outcome of one token in the container `*here`, which becomes the child that the token names. */
static uint32_t step(const uint8_t *bytes, const plain_rows *rows, size_t *here, const uint8_t *token, size_t size) {
    const jx_row *container = &rows->all[*here];
    size_t found = NO_ROW, place = 0;
    if (container->kind == JX_ARRAY) {
        if (size == 1 && *token == '-') return JX_AFTER_LAST;
        if (!is_index(token, size, &place)) return JX_NOT_AN_INDEX;
    } else if (container->kind != JX_OBJECT) {
        return JX_NOT_A_CONTAINER;
    }
    for (size_t r = *here + 1; r < rows->count && rows->all[r].span.start < container->span.end; r++) {
        const jx_row *child = &rows->all[r];
        if (child->parent != *here) continue;
        if (container->kind == JX_ARRAY && child->place != place) continue;
        if (container->kind == JX_OBJECT && !are_same(units_of_name(bytes, child->name), units_of_token(token, size))) continue;
        if (found != NO_ROW) return JX_NAME_REPEATED;
        found = r;
    }
    if (found == NO_ROW) return container->kind == JX_ARRAY ? JX_PAST_END : JX_NO_SUCH_MEMBER;
    *here = found;
    return JX_FOUND;
}

jx_answer plain_find(const uint8_t *bytes, const plain_rows *rows, const jx_verdict *verdict, const uint8_t *pointer, size_t size) {
    if (!is_utf8(pointer, size)) return lost(JX_NOT_UTF8, 0);
    if (size > 0 && pointer[0] != '/') return lost(JX_NO_SLASH, 0);
    for (size_t i = 0; i < size; i++) {
        if (pointer[i] == '~' && (i + 1 == size || (pointer[i + 1] != '0' && pointer[i + 1] != '1'))) return lost(JX_BAD_ESCAPE, i);
    }
    if (verdict->kind != JX_ACCEPTED) return refused(verdict);
    size_t here = 0;
    for (size_t i = 0, number_of_token = 0; i < size; number_of_token++) {
        const uint8_t *token = pointer + ++i;
        while (i < size && pointer[i] != '/') i++;
        const uint32_t outcome = step(bytes, rows, &here, token, (size_t)(pointer + i - token));
        if (outcome != JX_FOUND) return lost(outcome, number_of_token);
    }
    return (jx_answer){rows->all[here].span, 0, JX_FOUND, rows->all[here].kind};
}
