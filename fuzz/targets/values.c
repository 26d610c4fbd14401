#include "pointers.h"

#include <stdlib.h>
#include <string.h>

static uint8_t told[MOST_TEXT + 1];
static uint8_t wanted[MOST_TEXT + 1];

static int is_a_pointer(const jx_pointer *pointer) {
    plain_rows rows;
    const jx_settings usual = {JX_DEPTH_DEFAULT, 0};
    const jx_verdict verdict = plain_read(pointer->bytes, 0, 0, &usual, &rows);
    const uint32_t outcome = plain_find(pointer->bytes, &rows, &verdict, pointer->bytes, pointer->size).outcome;
    return outcome != JX_NO_SLASH && outcome != JX_BAD_ESCAPE && outcome != JX_NOT_UTF8;
}

/* Takes all lines that wait, once there is room; tells how many bytes were told with them. */
static size_t take(input *in, jx_values *values, size_t already) {
    uint32_t status;
    size_t size = 0x5A;
    uint8_t *none = unwritten(0);
    CALL(status, jx_values_take(values, none, 0, &size), 0);
    REQUIRE(status == (size == 0 ? JX_OK : JX_NO_ROOM) && library_requests() == 0, "values without room");
    free(none);
    REQUIRE(size <= sizeof told - already, "more bytes than were fed");
    uint8_t *lines = unwritten(size + 2);
    const size_t waiting = size;
    CALL(status, jx_values_take(values, lines, size + already % 2, &size), 0);
    REQUIRE(status == JX_OK && size == waiting && library_requests() == 0 && is_unwritten(lines + size, 2), "what stands behind the values");
    memcpy(told + already, lines, size);
    free(lines);
    CALL(status, jx_values_take(values, NULL, 0, &size), 0);
    REQUIRE(status == JX_OK && size == 0, "values are taken once");
    return already + waiting;
}

/* A stream that wants memory is lost, and the text begins anew. */
static uint32_t feed_from_start(input *in, const jx_pointer *pointer, jx_values *values, const uint8_t *bytes, size_t size,
                                int *is_lost) {
    const size_t held = library_bytes();
    library_enter(in->granted);
    uint32_t status = jx_values_feed(values, bytes, size);
    library_leave();
    require_bounded(held, (size_t)(bytes - in->text) + size + pointer->size, 128, "values take too much memory");
    *is_lost = status == JX_NO_MEMORY;
    if (!*is_lost) return status;
    REQUIRE(library_was_refused() && values->inside == NULL, "want of memory");
    REQUIRE(library_blocks() == 0, "a lost stream keeps memory");
    REQUIRE(jx_values_feed(values, bytes, size) == JX_NO_VALUES, "a lost stream is none");
    library_enter(-1);
    status = jx_values_new(pointer->bytes, pointer->size, &in->settings, values);
    if (status == JX_OK) status = jx_values_feed(values, in->text, (size_t)(bytes - in->text) + size);
    library_leave();
    return status;
}

/* What was taken of a beginning of the text is what is due of that beginning. */
static void hold_due(input *in, const jx_pointer *pointer, size_t size, size_t count) {
    plain_rows rows;
    const jx_verdict verdict = plain_read(in->text, 0, size, &in->settings, &rows);
    const size_t most = plain_values(in->text, size, &verdict, pointer->bytes, pointer->size, wanted);
    REQUIRE(count == most && memcmp(told, wanted, most) == 0, "values that are due");
}

static void hold_outcome(input *in, const jx_pointer *pointer, jx_values *values) {
    uint32_t status;
    plain_rows rows;
    jx_outcome *outcome = unwritten(sizeof *outcome);
    const jx_verdict verdict = plain_read(in->text, 0, in->size, &in->settings, &rows);
    const jx_answer answer = plain_find(in->text, &rows, &verdict, pointer->bytes, pointer->size);
    const jx_outcome want = plain_outcome(&answer, pointer->bytes, pointer->size);
    library_enter(in->granted);
    status = jx_values_end(values, outcome);
    library_leave();
    REQUIRE(values->inside == NULL && library_blocks() == 0, "a stream that has ended");
    if (status == JX_NO_MEMORY) {
        REQUIRE(library_was_refused() && is_unwritten(outcome, sizeof *outcome), "an end without memory");
    } else {
        REQUIRE(status == JX_OK && outcome->at == want.at && outcome->kind == want.kind, "the outcome of values");
    }
    REQUIRE(jx_values_end(values, outcome) == JX_NO_VALUES, "a stream ends once");
    free(outcome);
}

static void feed_for(input *in, const jx_pointer *pointer) {
    jx_values values = {NULL};
    uint32_t status;
    CALL(status, jx_values_new(pointer->bytes, pointer->size, &in->settings, &values), values.inside == NULL);
    REQUIRE(status == (is_a_pointer(pointer) ? JX_OK : JX_NOT_A_POINTER), "a stream of values");
    if (status != JX_OK) {
        REQUIRE(values.inside == NULL, "what is no pointer");
        return;
    }
    size_t count = 0;
    for (size_t at = 0, cuts = 0; at < in->size; cuts++) {
        int is_lost;
        const size_t size = cuts < 40 ? choice_upto(in, in->size - at) : in->size - at;
        REQUIRE(feed_from_start(in, pointer, &values, in->text + at, size, &is_lost) == JX_OK, "a slice of a text");
        at += size;
        count = take(in, &values, is_lost ? 0 : count);
        if (cuts < 8 || at == in->size) hold_due(in, pointer, at, count);
    }
    if (choice(in) % 8 != 7) hold_outcome(in, pointer, &values);
    library_enter(-1);
    jx_values_free(&values);
    library_leave();
    REQUIRE(values.inside == NULL && library_blocks() == 0, "a stream that was freed");
}

void feed_values(input *in) {
    static pointers p;
    plain_rows rows;
    jx_values none = {NULL};
    static const uint8_t root[1] = {0};
    const jx_settings unique = {in->settings.depth, in->settings.flags | JX_UNIQUE_NAMES};
    REQUIRE(jx_values_new(root, 0, &unique, &none) == JX_NO_UNIQUE_NAMES && none.inside == NULL, "unique names");
    in->settings.flags &= JX_IGNORE_MARK;
    const jx_pointer to_root = {root, 0};
    feed_for(in, &to_root);
    plain_read(in->text, 0, in->size, &in->settings, &rows);
    make_pointers(in, &rows, &p);
    for (size_t k = 0; k < p.count && k < 3; k++) feed_for(in, &p.all[k]);
    free_pointers(&p);
}
