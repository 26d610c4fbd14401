#include "targets.h"

#include <stdlib.h>
#include <string.h>

enum { UNTOLD = 0x5A };

/* What a text should come to: a verdict, and where it is accepted its compact form. */
typedef struct wanted_form {
    jx_verdict verdict;
    uint8_t *form;
    size_t size;
} wanted_form;

static void compact_in(input *in, size_t room, const wanted_form *wanted) {
    uint32_t status;
    jx_verdict told = no_verdict;
    size_t size = UNTOLD;
    uint8_t *form = unwritten(room);
    CALL(status, jx_compact(in->text, in->size, &in->settings, form, room, &size, &told),
         is_no_verdict(&told) && size == UNTOLD && is_unwritten(form, room));
    REQUIRE(in->settings.flags & JX_UNIQUE_NAMES || library_requests() == 0, "a compact form without names asks for memory");
    if (room < wanted->size) {
        REQUIRE(status == JX_NO_ROOM && size == wanted->size, "the size of a form that has no room");
        REQUIRE(is_no_verdict(&told) && is_unwritten(form, room), "changed where there is no room");
    } else {
        REQUIRE(status == JX_OK && same_verdict(&told, &wanted->verdict), "the verdict of a compact form");
        REQUIRE(size == wanted->size && memcmp(form, wanted->form, size) == 0, "a compact form");
        REQUIRE(is_unwritten(form + size, room - size), "what stands behind the form");
    }
    free(form);
}

static int same_bytes(const uint8_t *text, const jx_span *a, const uint8_t *form, const jx_span *b) {
    const size_t size = a->end - a->start;
    return b->end - b->start == size && memcmp(text + a->start, form + b->start, size) == 0;
}

/* The form has the same values in the same order, and the bytes of each name and scalar. */
static void reads_alike(const input *in, const plain_rows *rows, const wanted_form *wanted) {
    const jx_settings settings = {in->settings.depth, in->settings.flags & JX_UNIQUE_NAMES};
    const size_t count = rows->count;
    jx_row *all = (jx_row *)kept_copy((const uint8_t *)rows->all, count * sizeof *all);
    plain_rows read;
    const jx_verdict verdict = plain_read(wanted->form, 0, wanted->size, &settings, &read);
    REQUIRE(verdict.kind == JX_ACCEPTED && read.count == count, "a compact form is no such text");
    for (size_t r = 0; r < count; r++) {
        const jx_row *a = &all[r], *b = &read.all[r];
        const int is_container = a->kind == JX_OBJECT || a->kind == JX_ARRAY;
        REQUIRE(a->kind == b->kind && a->parent == b->parent && a->place == b->place, "a value of a compact form");
        REQUIRE(same_bytes(in->text, &a->name, wanted->form, &b->name), "a name of a compact form");
        REQUIRE(is_container || same_bytes(in->text, &a->span, wanted->form, &b->span), "a scalar of a compact form");
    }
    free(all);
}

static void is_its_own_form(const wanted_form *wanted) {
    jx_verdict told;
    size_t size;
    uint8_t *form = kept(wanted->size);
    const jx_settings deep = {JX_DEPTH_MAX, 0};
    REQUIRE(jx_compact(wanted->form, wanted->size, &deep, form, wanted->size, &size, &told) == JX_OK, "the form of a form");
    REQUIRE(size == wanted->size && memcmp(form, wanted->form, size) == 0, "the form of a form is another one");
    free(form);
}

void compact_texts(input *in) {
    plain_rows rows;
    wanted_form wanted = {plain_read(in->text, 0, in->size, &in->settings, &rows), kept(in->size), 0};
    if (wanted.verdict.kind == JX_ACCEPTED) {
        wanted.size = plain_compact(in->text, in->size, wanted.form);
        reads_alike(in, &rows, &wanted);
        is_its_own_form(&wanted);
    }
    compact_in(in, wanted.size, &wanted);
    compact_in(in, in->size + choice(in) % 3, &wanted);
    compact_in(in, choice_upto(in, wanted.size), &wanted);
    free(wanted.form);
}
