#include "targets.h"

#include <stdlib.h>

static jx_line wanted[MOST_TEXT + 1];
static jx_line told[MOST_TEXT + 1];

static int same_line(const jx_line *a, const jx_line *b) {
    return a->number == b->number && a->span.start == b->span.start && a->span.end == b->span.end && same_verdict(&a->verdict, &b->verdict);
}

static int same_counts(const jx_line_counts *a, const jx_line_counts *b) {
    return a->accepted == b->accepted && a->refused == b->refused && a->blank == b->blank;
}

/* Takes all lines that wait, once there is room; tells how many were told with them. */
static size_t take(input *in, jx_lines *lines, size_t already) {
    uint32_t status;
    size_t count = 0x5A;
    jx_line *none = unwritten(0);
    CALL(status, jx_lines_take(lines, none, 0, &count), 0);
    REQUIRE(status == (count == 0 ? JX_OK : JX_NO_ROOM) && library_requests() == 0, "lines without room");
    free(none);
    REQUIRE(count <= MOST_TEXT - already, "more lines than bytes");
    jx_line *bad = unwritten((count + 1) * sizeof *bad);
    const size_t waiting = count;
    CALL(status, jx_lines_take(lines, bad, count + (already % 2), &count), 0);
    REQUIRE(status == JX_OK && count == waiting && is_unwritten(bad + count, sizeof *bad), "what stands behind the lines");
    for (size_t k = 0; k < count; k++) told[already + k] = bad[k];
    free(bad);
    return already + count;
}

/* A reader that wants memory is lost, and the input begins anew. */
static uint32_t feed_from_start(input *in, jx_lines *lines, const uint8_t *bytes, size_t size, int *is_lost) {
    const size_t held = library_bytes();
    library_enter(in->granted);
    uint32_t status = jx_lines_feed(lines, bytes, size);
    library_leave();
    require_bounded(held, size, 640, "lines take too much memory");
    *is_lost = status == JX_NO_MEMORY;
    if (!*is_lost) return status;
    REQUIRE(library_was_refused() && lines->inside == NULL, "want of memory");
    REQUIRE(library_blocks() == 0, "a lost reader keeps memory");
    REQUIRE(jx_lines_feed(lines, bytes, size) == JX_NO_LINES, "a lost reader is none");
    library_enter(-1);
    status = jx_lines_new(&in->settings, lines);
    if (status == JX_OK) status = jx_lines_feed(lines, in->text, (size_t)(bytes - in->text) + size);
    library_leave();
    return status;
}

void feed_lines(input *in) {
    jx_lines lines = {NULL};
    uint32_t status;
    const int is_cut = choice(in) % 2;
    for (size_t k = 0; k < in->size && is_cut; k++) {
        if (in->text[k] == ',' || in->text[k] == ';') in->text[k] = '\n';
    }
    const jx_settings unique = {in->settings.depth, in->settings.flags | JX_UNIQUE_NAMES};
    REQUIRE(jx_lines_new(&unique, &lines) == JX_NO_UNIQUE_NAMES && lines.inside == NULL, "unique names");
    in->settings.flags &= JX_IGNORE_MARK;
    CALL(status, jx_lines_new(&in->settings, &lines), lines.inside == NULL);
    REQUIRE(status == JX_OK, "a reader of lines");
    size_t count = 0;
    for (size_t at = 0, cuts = 0; at < in->size; cuts++) {
        int is_lost;
        const size_t size = cuts < 40 ? choice_upto(in, in->size - at) : in->size - at;
        REQUIRE(feed_from_start(in, &lines, in->text + at, size, &is_lost) == JX_OK, "a slice of lines");
        at += size;
        count = take(in, &lines, is_lost ? 0 : count);
    }
    jx_line_counts counts, wanted_counts;
    jx_line last;
    REQUIRE(jx_lines_end(&lines, &last, &counts) == JX_OK, "the end of lines");
    if (last.number > 0) told[count++] = last;
    const size_t most = plain_lines(in->text, in->size, &in->settings, wanted, sizeof wanted / sizeof wanted[0], &wanted_counts);
    REQUIRE(count == most && same_counts(&counts, &wanted_counts), "the count of lines");
    for (size_t k = 0; k < count; k++) REQUIRE(same_line(&told[k], &wanted[k]), "a line");
    library_enter(-1);
    jx_lines_free(&lines);
    library_leave();
    REQUIRE(lines.inside == NULL, "a reader that was freed");
}
