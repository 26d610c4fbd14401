/* The values of a container, as lines, of a text or of what begins one: those with a comma or a bracket behind them (RFC 8259, sections 2
 * to 5), by a pointer (RFC 6901, section 4) that goes by the first member of each name. No row is asked for, as bytes that end too
 * early have none. */
#include "names.h"
#include "plain.h"
#include "tokens.h"

#include <string.h>

typedef struct walk {
    const uint8_t *bytes;
    size_t at, end; /* up to the first fault */
} walk;

static int is_next(walk *w, uint8_t byte) {
    blanks(w->bytes, w->end, &w->at);
    return w->at < w->end && w->bytes[w->at] == byte;
}

static int is_gone_over(walk *w, uint8_t byte) {
    if (!is_next(w, byte)) return 0;
    w->at++;
    return 1;
}

static int skip_scalar(walk *w) {
    switch (w->bytes[w->at]) {
    case '"': return string(w->bytes, w->end, &w->at);
    case 't': return literal(w->bytes, w->end, &w->at, "true");
    case 'f': return literal(w->bytes, w->end, &w->at, "false");
    case 'n': return literal(w->bytes, w->end, &w->at, "null");
    default: return number(w->bytes, w->end, &w->at);
    }
}

/* Goes over a value; tells whether it is whole. The bytes are known to begin a text, so brackets are counted alone. */
static int skip_value(walk *w) {
    size_t open = 0;
    do {
        blanks(w->bytes, w->end, &w->at);
        if (w->at == w->end) return 0;
        switch (w->bytes[w->at]) {
        case '[': case '{': open++; w->at++; break;
        case ']': case '}': open--; w->at++; break;
        case ',': case ':': w->at++; break;
        default:
            if (!skip_scalar(w)) return 0;
        }
    } while (open > 0);
    return 1;
}

/* Goes over a name and its colon. */
static int read_name(walk *w, jx_span *name) {
    if (!is_next(w, '"')) return 0;
    name->start = w->at;
    if (!string(w->bytes, w->end, &w->at)) return 0;
    name->end = w->at;
    return is_gone_over(w, ':');
}

static int is_place(const uint8_t *token, size_t size, size_t place) {
    char digits[24];
    size_t count = 0;
    do {
        digits[count++] = (char)('0' + place % 10);
        place /= 10;
    } while (place > 0);
    if (count != size) return 0;
    for (size_t k = 0; k < size; k++) {
        if (token[k] != (uint8_t)digits[count - 1 - k]) return 0;
    }
    return 1;
}

/* Goes to the first child that a token names; tells whether its place was read. */
static int go_down(walk *w, const uint8_t *token, size_t size) {
    const int is_object = is_next(w, '{');
    if (!is_object && !is_next(w, '[')) return 0;
    w->at++;
    for (size_t place = 0;; place++) {
        jx_span name;
        if (is_next(w, is_object ? '}' : ']') || w->at == w->end) return 0;
        if (is_object && !read_name(w, &name)) return 0;
        if (is_object ? are_same(units_of_name(w->bytes, name), units_of_token(token, size)) : is_place(token, size, place)) return 1;
        if (!skip_value(w) || !is_gone_over(w, ',')) return 0;
    }
}

/* Writes the lines of the container's values. */
static size_t put_values(walk *w, uint8_t *lines) {
    size_t count = 0;
    const int is_object = is_next(w, '{');
    if (!is_object && !is_next(w, '[')) return 0;
    w->at++;
    if (is_next(w, ']') || is_next(w, '}')) return 0;
    do {
        jx_span name;
        if (is_object && !read_name(w, &name)) return count;
        blanks(w->bytes, w->end, &w->at);
        const size_t start = w->at;
        if (!skip_value(w)) return count;
        const size_t size = w->at - start;
        if (!is_next(w, ',') && !is_next(w, ']') && !is_next(w, '}')) return count;
        count += plain_compact(w->bytes + start, size, lines + count);
        lines[count++] = '\n';
    } while (is_gone_over(w, ','));
    return count;
}

size_t plain_values(const uint8_t *bytes, size_t size, const jx_verdict *verdict, const uint8_t *pointer, size_t pointer_size,
                    uint8_t *lines) {
    const int is_fault = verdict->kind == JX_STOPPED || verdict->kind == JX_TOO_DEEP;
    walk w = {bytes, size >= 3 && memcmp(bytes, "\xEF\xBB\xBF", 3) == 0 ? 3 : 0, is_fault ? verdict->offset : size};
    if (w.at > w.end) return 0;
    for (size_t i = 0; i < pointer_size;) {
        const uint8_t *token = pointer + ++i;
        while (i < pointer_size && pointer[i] != '/') i++;
        if (!go_down(&w, token, (size_t)(pointer + i - token))) return 0;
    }
    return put_values(&w, lines);
}

jx_outcome plain_outcome(const jx_answer *answer, const uint8_t *pointer, size_t size) {
    if (answer->outcome != JX_FOUND) return (jx_outcome){answer->at, answer->outcome};
    if (answer->kind == JX_ARRAY || answer->kind == JX_OBJECT) return (jx_outcome){0, JX_FOUND};
    size_t tokens = 0;
    for (size_t i = 0; i < size; i++) tokens += pointer[i] == '/';
    return (jx_outcome){tokens, JX_NOT_A_CONTAINER};
}
