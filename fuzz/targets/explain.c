#include "targets.h"

#include <stdlib.h>
#include <string.h>

enum { UNTOLD = 0x5A, NAMES = 512, TRIED = 4096 };

static const jx_place no_place = {UNTOLD, UNTOLD};

static int is_place(const jx_place *a, const jx_place *b) { return a->line == b->line && a->column == b->column; }

/* The sentence in a room, which the whole one is longer than or not. Gives its size. */
static size_t explain_in(input *in, const jx_verdict *verdict, size_t room, const uint8_t *whole) {
    const size_t at = verdict->kind == JX_TRUNCATED ? in->size : verdict->offset;
    const jx_place wanted = plain_place(in->text, at);
    uint32_t status;
    size_t size = UNTOLD;
    jx_place place = no_place;
    uint8_t *sentence = unwritten(room);
    CALL(status, jx_explain(in->text, in->size, &in->settings, verdict, sentence, room, &size, &place),
         size == UNTOLD && is_place(&place, &no_place) && is_unwritten(sentence, room));
    REQUIRE(status == JX_OK, "the status of a sentence");
    REQUIRE(is_place(&place, &wanted), "the place of a fault");
    const size_t written = size < room ? size : room;
    REQUIRE(is_unwritten(sentence + written, room - written), "what stands behind the sentence");
    REQUIRE(whole == NULL || memcmp(sentence, whole, written) == 0, "a sentence that is cut");
    free(sentence);
    return size;
}

static int is_in(const uint8_t *sentence, size_t size, const char *words) {
    const size_t length = strlen(words);
    for (size_t at = 0; at + length <= size; at++) {
        if (memcmp(sentence + at, words, length) == 0) return 1;
    }
    return 0;
}

/* It names all that may stand there, and nothing else, unless it says more. */
static void names_the_choices(const input *in, const jx_verdict *verdict, const uint8_t *sentence, size_t size) {
    static const char *const more[] = {"byte order mark", "must be escaped", "no digit may follow", "ends inside a string"};
    char names[NAMES + 16] = "expected ";
    const int is_stopped = verdict->kind == JX_STOPPED;
    const size_t at = is_stopped ? verdict->offset : in->size;
    if (!is_stopped) strcpy(names, "ends where ");
    if (at > TRIED) return;
    for (size_t k = 0; k < sizeof more / sizeof *more; k++) {
        if (is_in(sentence, size, more[k])) return;
    }
    const size_t front = strlen(names);
    plain_choices(in->text, at, in->settings.flags, names + front, NAMES);
    REQUIRE(is_in(sentence, size, names), "what may stand at a fault");
}

static void refuses(input *in, const jx_verdict *verdict, uint32_t wanted, const char *what) {
    uint8_t sentence[1] = {UNTOLD};
    size_t size = UNTOLD;
    jx_place place = no_place;
    REQUIRE(jx_explain(in->text, in->size, &in->settings, verdict, sentence, 1, &size, &place) == wanted, what);
    REQUIRE(sentence[0] == UNTOLD && size == UNTOLD && is_place(&place, &no_place), "changed where nothing is said");
}

void explain_texts(input *in) {
    plain_rows rows;
    const jx_verdict verdict = plain_read(in->text, 0, in->size, &in->settings, &rows);
    refuses(in, &(jx_verdict){0, JX_ACCEPTED}, JX_NOT_REFUSED, "the sentence of an accepted text");
    refuses(in, &(jx_verdict){in->size + 1 + choice(in), JX_STOPPED}, JX_OUT_OF_BOUNDS, "the sentence of an offset behind the text");
    if (verdict.kind == JX_ACCEPTED) return;
    const size_t size = explain_in(in, &verdict, 0, NULL);
    uint8_t *whole = kept(size);
    size_t told = 0;
    jx_place place;
    REQUIRE(jx_explain(in->text, in->size, &in->settings, &verdict, whole, size, &told, &place) == JX_OK && told == size, "a whole sentence");
    if (verdict.kind == JX_STOPPED || verdict.kind == JX_TRUNCATED) names_the_choices(in, &verdict, whole, size);
    REQUIRE(explain_in(in, &verdict, size + choice(in) % 3, whole) == size, "the size of a sentence");
    REQUIRE(explain_in(in, &verdict, choice_upto(in, size), whole) == size, "the size of a sentence that is cut");
    free(whole);
}
