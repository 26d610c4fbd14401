#include "targets.h"

#include <stdlib.h>
#include <string.h>

enum { MOST_EDITED = 3 << 20, CHUNK = 16384 };

/* The bytes that the document should have. */
static uint8_t edited[MOST_EDITED];
static size_t edited_size;

typedef struct edit {
    size_t start, end, size;
    uint8_t put[MOST_TEXT];
} edit;

static int has_all_bytes(jx_document *document) {
    static uint8_t copy[MOST_EDITED];
    size_t size = 0x5A;
    return jx_document_size(document, &size) == JX_OK && size == edited_size && jx_document_copy(document, 0, copy, size) == JX_OK &&
           memcmp(copy, edited, size) == 0;
}

static int has_some_bytes(jx_document *document, input *in) {
    static uint8_t copy[MOST_EDITED];
    size_t size = 0x5A;
    if (jx_document_size(document, &size) != JX_OK || size != edited_size) return 0;
    const size_t start = choice_upto(in, size), count = choice_upto(in, size - start);
    if (jx_document_copy(document, start, copy, size - start + 1) != JX_OUT_OF_BOUNDS) return 0;
    return jx_document_copy(document, start, copy, count) == JX_OK && memcmp(copy, edited + start, count) == 0;
}

/* Which bytes go, also at the ends of chunks. */
static void choose_range(input *in, uint8_t how, edit *e) {
    e->start = e->end = choice_upto(in, edited_size);
    const size_t behind = edited_size - e->start;
    if (how & 1) {
        e->end += choice_upto(in, behind);
    } else if (how & 2) {
        e->end += behind < 3 ? behind : choice(in) % 4u;
    }
    if (how & 4) e->start = e->start / CHUNK * CHUNK + (how >> 6);
    if (e->start > edited_size) e->start = edited_size;
    if (e->end < e->start) e->end = e->start;
}

/* Which bytes come: a word of the grammar, a part of the text, or any. */
static void choose_replacement(input *in, uint8_t how, edit *e) {
    static const char *const words[20] = {"",  "\"",   "[",            "]", "{", "}",         "{\"a\":", ",",    ":",  "\\",
                                          "1", "\xEF", "\xEF\xBB\xBF", "-", "0", "\xF0\x9F", "\\ud800", "true", "\n", "e"};
    e->size = 0;
    if (how & 8) {
        const char *word = words[choice(in) % 20];
        e->size = strlen(word);
        memcpy(e->put, word, e->size);
    } else if (how & 16) {
        const size_t from = choice_upto(in, edited_size);
        e->size = choice_upto(in, edited_size - from);
        if (e->size > sizeof e->put) e->size = sizeof e->put;
        memcpy(e->put, edited + from, e->size);
    } else {
        while (e->size < (size_t)(how >> 5)) e->put[e->size++] = choice(in);
    }
}

static void refuse_edits(jx_document *document, const edit *e) {
    REQUIRE(jx_document_edit(document, edited_size + 1, edited_size + 1, e->put, 0) == JX_OUT_OF_BOUNDS, "an edit behind the end");
    if (e->start == 0) return;
    REQUIRE(jx_document_edit(document, e->start, e->start - 1, e->put, 0) == JX_OUT_OF_BOUNDS, "an edit that ends before it starts");
}

static void make_edit(input *in, jx_document *document, const edit *e) {
    uint32_t status;
    uint8_t *replacement = kept_copy(e->put, e->size);
    const size_t held = library_bytes();
    CALL_ON_DOCUMENT(status, jx_document_edit(document, e->start, e->end, replacement, e->size), has_all_bytes(document));
    free(replacement);
    REQUIRE(status == JX_OK, "an edit");
    require_bounded(held, e->size + 65536 + edited_size / 64, 64, "an edit takes too much memory");
    memmove(edited + e->start + e->size, edited + e->end, edited_size - e->end);
    memcpy(edited + e->start, e->put, e->size);
    edited_size = edited_size - (e->end - e->start) + e->size;
}

static void hold_verdict(input *in, jx_document *document) {
    uint32_t status;
    jx_verdict told = no_verdict;
    plain_rows rows;
    CALL_ON_DOCUMENT(status, jx_document_verdict(document, &told), is_no_verdict(&told));
    const jx_verdict wanted = plain_read(edited, 0, edited_size, &in->settings, &rows);
    REQUIRE(status == JX_OK && same_verdict(&told, &wanted), "the verdict behind an edit");
}

static void make_document(input *in, jx_document *document) {
    uint32_t status;
    const void *before = document->inside;
    CALL(status, jx_document_new(in->text, in->size, &in->settings, document), document->inside == before && (before == NULL || has_all_bytes(document)));
    REQUIRE(status == JX_OK && document->inside != NULL, "a document is made");
}

void edit_documents(input *in) {
    static edit e;
    jx_document document = {0};
    in->settings.flags &= JX_IGNORE_MARK;
    make_document(in, &document);
    require_bounded(0, in->size, 64, "a document takes too much memory");
    memcpy(edited, in->text, in->size);
    edited_size = in->size;
    for (int k = 1 + choice(in) % (in->size > MOST_TEXT ? 8 : 24); k > 0; k--) {
        const uint8_t how = choice(in);
        choose_range(in, how, &e);
        choose_replacement(in, how, &e);
        if (edited_size - (e.end - e.start) + e.size > MOST_EDITED) continue;
        make_edit(in, &document, &e);
        refuse_edits(&document, &e);
        REQUIRE(has_some_bytes(&document, in), "the bytes behind an edit");
        /* A verdict may take up several edits. */
        if (k == 1 || choice(in) % 4 != 3) hold_verdict(in, &document);
    }
    REQUIRE(has_all_bytes(&document), "all bytes behind all edits");
    if (choice(in) % 4 == 0) make_document(in, &document);
    library_enter(0);
    jx_document_free(&document);
    library_leave();
    REQUIRE(document.inside == NULL, "a freed document");
}
