/* Sequences (RFC 7464, sections 2.1 and 2.4). */
#include "plain.h"

#include <string.h>

static jx_verdict verdict_of_element(const uint8_t *bytes, jx_span span, const jx_settings *settings) {
    const jx_settings inside = {settings->depth, settings->flags & JX_UNIQUE_NAMES};
    plain_rows rows;
    const jx_verdict verdict = plain_read(bytes, span.start, span.end, &inside, &rows);
    /* A number, true, false or null that ends where the element does may go on in what was lost. */
    const int may_be_cut = verdict.kind == JX_ACCEPTED && rows.all[0].kind >= JX_NUMBER && rows.all[0].span.end == span.end;
    return may_be_cut ? (jx_verdict){0, JX_MAY_BE_CUT} : verdict;
}

size_t plain_elements(const uint8_t *bytes, size_t size, const jx_settings *settings, jx_element *elements, size_t room) {
    size_t count = 0;
    for (size_t start = 0, end; start <= size; start = end + 1) {
        for (end = start; end < size && bytes[end] != 0x1E;) end++;
        if (end == start) continue;
        const int is_mark = start == 0 && end == 3 && memcmp(bytes, "\xEF\xBB\xBF", 3) == 0;
        if (is_mark && settings->flags & JX_IGNORE_MARK) continue;
        jx_element element = {{start, end}, {0, JX_UNMARKED}};
        if (start > 0) element.verdict = verdict_of_element(bytes, element.span, settings);
        if (count < room) elements[count] = element;
        count++;
    }
    return count;
}
