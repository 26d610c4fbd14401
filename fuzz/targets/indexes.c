#include "pointers.h"

#include <stdlib.h>

/* Makes an index in place of one that the struct may hold. */
static void make_index(input *in, jx_index *index, const jx_verdict *verdict) {
    uint32_t status;
    jx_verdict told = no_verdict;
    const void *before = index->inside;
    CALL(status, jx_index_new(in->text, in->size, &in->settings, index, &told), index->inside == before && is_no_verdict(&told));
    REQUIRE(status == JX_OK && same_verdict(&told, verdict), "the verdict of an index");
    REQUIRE((index->inside != NULL) == (verdict->kind == JX_ACCEPTED), "an index of what is no text, or none of a text");
}

static void find(jx_index *index, const jx_pointer *pointer, const jx_answer *wanted) {
    jx_answer *told = unwritten(sizeof *told);
    library_enter(0);
    const uint32_t status = jx_index_find(index, pointer->bytes, pointer->size, told);
    library_leave();
    REQUIRE(library_requests() == 0, "a look-up asks for memory");
    if (wanted == NULL) {
        REQUIRE(status == JX_NO_INDEX && is_unwritten(told, sizeof *told), "a look-up in no index");
    } else {
        REQUIRE(status == JX_OK && same_answer(told, wanted), "a look-up's answer");
    }
    free(told);
}

static void get_row(jx_index *index, size_t number, const plain_rows *rows) {
    jx_row *row = unwritten(sizeof *row);
    const uint32_t status = jx_index_row(index, number, row);
    if (number < rows->count) {
        REQUIRE(status == JX_OK && same_row(row, &rows->all[number]), "a row of an index");
    } else {
        REQUIRE(status == JX_OUT_OF_BOUNDS && is_unwritten(row, sizeof *row), "a row behind the last one");
    }
    free(row);
}

/* Puts the index on a shelf, if there is one, and looks there by another handle. */
static void look_on_a_shelf(input *in, jx_index *index, const pointers *p, const plain_rows *rows, const jx_verdict *verdict) {
    jx_shelf shelf = {0}, other = {0};
    uint32_t status;
    const int is_text = index->inside != NULL;
    CALL(status, jx_shelf_new(&shelf), shelf.inside == NULL);
    REQUIRE(status == JX_OK && shelf.inside != NULL, "a shelf");
    CALL(status, jx_shelf_share(&shelf, &other), other.inside == NULL);
    REQUIRE(status == JX_OK && other.inside != NULL, "another handle of a shelf");
    library_enter(-1);
    status = jx_shelf_put(&shelf, index);
    library_leave();
    REQUIRE(status == (is_text ? JX_OK : JX_NO_INDEX) && index->inside == NULL, "an index on a shelf");
    for (size_t k = 0; k < p->count; k++) {
        jx_answer told = {{77, 77}, 77, 77, 77};
        const jx_answer wanted = plain_find(in->text, rows, verdict, p->all[k].bytes, p->all[k].size);
        library_enter(0);
        status = jx_shelf_find(&other, p->all[k].bytes, p->all[k].size, &told);
        library_leave();
        REQUIRE(status == (is_text ? JX_OK : JX_NO_INDEX), "a look-up on a shelf");
        REQUIRE(is_text ? same_answer(&told, &wanted) : told.kind == 77, "the answer of a shelf");
    }
    library_enter(0);
    jx_shelf_free(&shelf);
    jx_shelf_free(&other);
    library_leave();
}

void look_up_in_indexes(input *in) {
    static pointers p;
    plain_rows rows;
    jx_index index = {0};
    const jx_verdict verdict = plain_read(in->text, 0, in->size, &in->settings, &rows);
    const int is_text = verdict.kind == JX_ACCEPTED;
    make_index(in, &index, &verdict);
    require_bounded(0, in->size, 512, "an index takes too much memory");
    if (choice(in) % 4 == 0) make_index(in, &index, &verdict);
    make_pointers(in, &rows, &p);
    for (size_t k = 0; k < p.count; k++) {
        const jx_answer wanted = plain_find(in->text, &rows, &verdict, p.all[k].bytes, p.all[k].size);
        find(&index, &p.all[k], is_text ? &wanted : NULL);
    }
    for (size_t k = 0; k < 24 && is_text; k++) get_row(&index, k < 4 ? rows.count - 1 + k : choice_upto(in, rows.count + 1), &rows);
    if (choice(in) % 4 == 0) look_on_a_shelf(in, &index, &p, &rows, &verdict);
    library_enter(0);
    jx_index_free(&index);
    library_leave();
    REQUIRE(index.inside == NULL, "a freed index");
    free_pointers(&p);
}
