#include "pointers.h"

#include <stdlib.h>

static jx_answer wanted[MOST_POINTERS];

static void look_up_one(input *in, const jx_pointer *pointer, const jx_answer *want) {
    uint32_t status;
    jx_answer *told = unwritten(sizeof *told);
    CALL(status, jx_at(in->text, in->size, pointer->bytes, pointer->size, &in->settings, told), is_unwritten(told, sizeof *told));
    REQUIRE(status == JX_OK && same_answer(told, want), "a pointer's answer");
    require_bounded(library_bytes(), in->size + pointer->size, 128, "a pointer takes too much memory");
    free(told);
}

static void look_up_all(input *in, const pointers *p, size_t room, size_t given) {
    uint32_t status;
    jx_answer *answers = unwritten(room * sizeof *answers);
    CALL(status, jx_at_all(in->text, in->size, &in->settings, p->all, p->count, answers, room), is_unwritten(answers, room * sizeof *answers));
    REQUIRE(status == JX_OK, "the status of many pointers");
    require_bounded(library_bytes(), given, 256, "many pointers take too much memory");
    const size_t written = room < p->count ? room : p->count;
    for (size_t k = 0; k < written; k++) REQUIRE(same_answer(&answers[k], &wanted[k]), "one of many pointers' answers");
    REQUIRE(is_unwritten(answers + written, (room - written) * sizeof *answers), "what stands behind the answers");
    free(answers);
}

/* The same of a text that is fed by slices, cut anywhere. */
static void look_up_fed(input *in, const pointers *p, size_t given) {
    jx_finder finder = {NULL};
    uint32_t status;
    CALL(status, jx_finder_new(p->all, p->count, &in->settings, &finder), finder.inside == NULL);
    REQUIRE(status == (in->settings.flags & JX_UNIQUE_NAMES ? JX_NO_UNIQUE_NAMES : JX_OK), "a look-up that is fed");
    if (status != JX_OK) return;
    jx_answer *answers = unwritten(p->count * sizeof *answers);
    library_enter(-1);
    for (size_t at = 0, cuts = 0; at < in->size; cuts++) {
        const size_t size = cuts < 40 ? choice_upto(in, in->size - at) : in->size - at;
        REQUIRE(jx_finder_feed(&finder, in->text + at, size) == JX_OK, "a slice of a text");
        at += size;
    }
    REQUIRE(jx_finder_end(&finder, answers, p->count) == JX_OK && finder.inside == NULL, "the end of a look-up");
    library_leave();
    require_bounded(library_bytes(), given, 256, "a look-up that is fed takes too much memory");
    for (size_t k = 0; k < p->count; k++) REQUIRE(same_answer(&answers[k], &wanted[k]), "an answer of a look-up that is fed");
    free(answers);
    library_enter(-1);
    REQUIRE(jx_finder_new(p->all, p->count, &in->settings, &finder) == JX_OK && finder.inside != NULL, "a look-up that begins again");
    jx_finder_free(&finder);
    REQUIRE(finder.inside == NULL, "a look-up that is freed");
    library_leave();
}

void look_up(input *in) {
    static pointers p;
    plain_rows rows;
    const jx_verdict verdict = plain_read(in->text, 0, in->size, &in->settings, &rows);
    const size_t more = choice(in) * 4u;
    make_pointers(in, &rows, &p);
    const size_t few = p.count;
    make_more_pointers(in, &rows, &p, more);
    size_t given = in->size;
    for (size_t k = 0; k < p.count; k++) {
        wanted[k] = plain_find(in->text, &rows, &verdict, p.all[k].bytes, p.all[k].size);
        given += p.all[k].size + sizeof p.all[k];
        if (k < few) look_up_one(in, &p.all[k], &wanted[k]);
    }
    look_up_all(in, &p, choice_upto(in, p.count + 1), given);
    look_up_fed(in, &p, given);
    free_pointers(&p);
}
