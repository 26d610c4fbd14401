#include "targets.h"

#include <stdlib.h>
#include <string.h>

static void feed(jx_reader *reader, const uint8_t *bytes, size_t size) {
    uint8_t *slice = kept_copy(bytes, size);
    library_enter(0);
    REQUIRE(jx_reader_feed(reader, slice, size) == JX_OK && library_requests() == 0, "a reader is fed");
    library_leave();
    free(slice);
}

static void hold_to_beginning(const jx_reader *reader, input *in, size_t end) {
    jx_verdict told = no_verdict;
    plain_rows rows;
    library_enter(0);
    REQUIRE(jx_reader_verdict(reader, &told) == JX_OK && library_requests() == 0, "a reader's verdict");
    library_leave();
    const jx_verdict wanted = plain_read(in->text, 0, end, &in->settings, &rows);
    REQUIRE(same_verdict(&told, &wanted), "the verdict behind a slice");
}

/* The reader goes on where a copy of it lies, and what it was copied from is lost. */
static void move(jx_reader *reader) {
    static jx_reader copy;
    memcpy(&copy, reader, sizeof copy);
    memset(reader, 0x5A, sizeof *reader);
    memcpy(reader, &copy, sizeof copy);
}

void feed_readers(input *in) {
    static jx_reader reader;
    in->settings.flags &= JX_IGNORE_MARK;
    memset(&reader, choice(in), sizeof reader);
    REQUIRE(jx_reader_start(&reader, &in->settings) == JX_OK, "a reader starts");
    const int is_short = in->size <= 48;
    const size_t slices = is_short ? in->size + 2 : 12;
    size_t at = 0;
    for (size_t k = 0; k < slices; k++) {
        const size_t left = in->size - at;
        size_t count = is_short && k % 5 < 3 ? 1 : choice_upto(in, left);
        if (k + 1 == slices || count > left) count = left;
        feed(&reader, in->text + at, count);
        at += count;
        hold_to_beginning(&reader, in, at);
        if (k % 3 == 1) move(&reader);
    }
}

enum { WORDS = sizeof((jx_reader *)0)->words / sizeof(uint64_t) };

static void forge(input *in, jx_reader *reader) {
    for (int k = choice(in) % 8; k >= 0; k--) {
        const size_t at = choice(in) % 2 ? choice_upto(in, WORDS - 1) : choice_upto(in, 12);
        const uint8_t how = choice(in);
        switch (how % 3) {
        case 0: reader->words[at] = choice_of_eight(in); break;
        case 1: reader->words[at] += (uint64_t)choice(in) - 128; break;
        default: reader->words[at] = how; break;
        }
    }
}

void feed_forged_readers(input *in) {
    /* By itself, so that AddressSanitizer sees a byte outside of it. */
    jx_reader *reader = kept(sizeof *reader);
    in->settings.flags &= JX_IGNORE_MARK;
    memset(reader, 0, sizeof *reader);
    REQUIRE(jx_reader_start(reader, &in->settings) == JX_OK, "a reader starts");
    const size_t part = choice_upto(in, in->size);
    REQUIRE(jx_reader_feed(reader, in->text, part) == JX_OK, "a reader is fed");
    forge(in, reader);
    jx_verdict told = no_verdict;
    uint32_t status = jx_reader_feed(reader, in->text + part, in->size - part);
    REQUIRE(status == JX_OK || status == JX_NOT_STARTED || status == JX_TOO_MANY_BYTES, "a forged reader is fed");
    status = jx_reader_verdict(reader, &told);
    REQUIRE(status == JX_OK ? told.kind <= JX_TOO_DEEP : status == JX_NOT_STARTED && is_no_verdict(&told), "a forged reader's verdict");
    free(reader);
}
