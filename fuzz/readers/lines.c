/* JSON Lines: line feeds cut an input into lines, each a text of its own (RFC 8259); of its end RFC 7464, section 2.4. */
#include "plain.h"

#include <string.h>

static int is_blank(uint8_t byte) { return byte == ' ' || byte == '\t' || byte == '\n' || byte == '\r'; }

static jx_verdict verdict_of_line(const uint8_t *bytes, jx_span span, int is_ended, const jx_settings *settings) {
    /* The first line may be a part of a mark that is ignored. */
    const jx_settings inside = {settings->depth, span.start == 0 ? settings->flags : 0};
    plain_rows rows;
    size_t front = span.start;
    while (front < span.end && is_blank(bytes[front])) front++;
    if (front == span.end) return (jx_verdict){0, JX_BLANK};
    const jx_verdict verdict = plain_read(bytes, span.start, span.end, &inside, &rows);
    /* A number, true, false or null that ends where the input does may go on in what was lost. */
    const int may_be_cut = verdict.kind == JX_ACCEPTED && !is_ended && rows.all[0].kind >= JX_NUMBER && rows.all[0].span.end == span.end;
    return may_be_cut ? (jx_verdict){0, JX_MAY_BE_CUT} : verdict;
}

size_t plain_lines(const uint8_t *bytes, size_t size, const jx_settings *settings, jx_line *bad, size_t room, jx_line_counts *counts) {
    const int has_mark = settings->flags & JX_IGNORE_MARK && size >= 3 && memcmp(bytes, "\xEF\xBB\xBF", 3) == 0;
    size_t count = 0, number = 0;
    *counts = (jx_line_counts){0, 0, 0};
    for (size_t start = has_mark ? 3 : 0, end; start < size; start = end + 1) {
        for (end = start; end < size && bytes[end] != '\n';) end++;
        const jx_line line = {++number, {start, end}, verdict_of_line(bytes, (jx_span){start, end}, end < size, settings)};
        if (line.verdict.kind == JX_ACCEPTED) {
            counts->accepted++;
            continue;
        }
        *(line.verdict.kind == JX_BLANK ? &counts->blank : &counts->refused) += 1;
        if (count < room) bad[count] = line;
        count++;
    }
    return count;
}
