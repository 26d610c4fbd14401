#include "calls.h"
#include "../harness.h"
#include "shapes.h"

#include <stdio.h>
#include <string.h>

static const jx_settings deep = {JX_DEPTH_MAX, 0}, unique = {JX_DEPTH_MAX, JX_UNIQUE_NAMES};
static jx_verdict verdict;
static jx_answer answer;

static const uint8_t *text(void) { return (const uint8_t *)shape_text; }

static void ok(uint32_t status) { REQUIRE(status == JX_OK, "a status"); }

static void check(void) { ok(jx_check(text(), shape_size, &deep, &verdict)); }
static void check_unique(void) { ok(jx_check(text(), shape_size, &unique, &verdict)); }

static void feed(void) {
    static jx_reader reader;
    enum { SLICE = 7 };
    ok(jx_reader_start(&reader, &deep));
    for (size_t at = 0; at < shape_size; at += SLICE) ok(jx_reader_feed(&reader, text() + at, shape_size - at < SLICE ? shape_size - at : SLICE));
    ok(jx_reader_verdict(&reader, &verdict));
}

static void list_rows(void) {
    jx_row row;
    size_t count;
    ok(jx_rows(text(), shape_size, &deep, &row, 1, &count, &verdict));
}

static void index_and_find(void) {
    jx_index index = {0};
    ok(jx_index_new(text(), shape_size, &deep, &index, &verdict));
    for (int k = 0; k < 1000 && verdict.kind == JX_ACCEPTED; k++) ok(jx_index_find(&index, (const uint8_t *)"/99/a", 5, &answer));
    jx_index_free(&index);
}

static void look_up(void) { ok(jx_at(text(), shape_size, (const uint8_t *)"/999999/x/y/0/1", 15, &deep, &answer)); }

static void look_up_deep(void) {
    enum { TOKENS = 30000, PART = 4 };
    static char pointer[TOKENS * PART];
    for (size_t k = 0; k < TOKENS; k++) memcpy(pointer + PART * k, "/0/a", PART);
    ok(jx_at(text(), shape_size, (const uint8_t *)pointer, sizeof pointer, &deep, &answer));
}

/* Pointers in no order, as many as a text of 2 MB has kilobytes. */
static void look_up_many(void) {
    enum { COUNT = 20000 };
    static char words[COUNT][16];
    static jx_pointer pointers[COUNT];
    static jx_answer answers[COUNT];
    for (size_t k = 0; k < COUNT; k++) {
        const int size = snprintf(words[k], sizeof words[k], "/%zu", k * 7919 % 1000003);
        pointers[k] = (jx_pointer){(const uint8_t *)words[k], (size_t)size};
    }
    ok(jx_at_all(text(), shape_size, &deep, pointers, COUNT, answers, COUNT));
}

static void list_elements(void) {
    jx_element element;
    size_t count;
    ok(jx_elements(text(), shape_size, &unique, &element, 1, &count));
}

static void read_lines(void) {
    enum { SLICE = 1 << 12 };
    static jx_line bad[SLICE], last;
    jx_lines lines = {0};
    jx_line_counts counts;
    size_t count;
    ok(jx_lines_new(&deep, &lines));
    for (size_t at = 0; at < shape_size; at += SLICE) {
        ok(jx_lines_feed(&lines, text() + at, shape_size - at < SLICE ? shape_size - at : SLICE));
        ok(jx_lines_take(&lines, bad, SLICE, &count));
    }
    ok(jx_lines_end(&lines, &last, &counts));
    jx_lines_free(&lines);
}

static void give_values(void) {
    enum { SLICE = 1 << 12 };
    static uint8_t *lines;
    static size_t room;
    jx_values values = {0};
    jx_outcome outcome;
    size_t size;
    if (room < shape_size) lines = kept(room = shape_size);
    ok(jx_values_new(NULL, 0, &deep, &values));
    for (size_t at = 0; at < shape_size; at += SLICE) {
        ok(jx_values_feed(&values, text() + at, shape_size - at < SLICE ? shape_size - at : SLICE));
        ok(jx_values_take(&values, lines, room, &size));
    }
    ok(jx_values_end(&values, &outcome));
}

static void edit(void) {
    static const char *const words[4] = {"[", "\"", "", "{\"a\":"};
    jx_document document = {0};
    ok(jx_document_new(text(), shape_size, &deep, &document));
    for (size_t k = 0; k < 40; k++) {
        const char *word = words[k % 4];
        const size_t size = strlen(word), at = k % 8 < 4 ? k % 3 : (k * 2654435761u) % shape_size;
        ok(jx_document_edit(&document, at, at, (const uint8_t *)word, size));
        ok(jx_document_verdict(&document, &verdict));
        ok(jx_document_edit(&document, at, at + size, (const uint8_t *)"", 0));
        ok(jx_document_verdict(&document, &verdict));
    }
    jx_document_free(&document);
}

static void run_by(uint32_t depth) {
    static uint8_t *runs[3];
    size_t sizes[3];
    const size_t half = shape_size / 2 + 1, most = JX_RUN_MOST(depth);
    for (int k = 0; k < 3; k++) {
        if (runs[k] == NULL) runs[k] = kept(JX_RUN_MOST(JX_DEPTH_MAX));
    }
    ok(jx_run_of(text(), half, 0, depth, runs[0], most, &sizes[0]));
    ok(jx_run_of(text() + half, shape_size - half, half, depth, runs[1], most, &sizes[1]));
    ok(jx_run_join(runs[0], sizes[0], runs[1], sizes[1], runs[2], most, &sizes[2]));
    ok(jx_run_verdict(runs[2], sizes[2], 0, shape_size, &verdict));
}

static void make_runs(void) { run_by(JX_DEPTH_DEFAULT); }
static void make_deep_runs(void) { run_by(JX_DEPTH_MAX); }

/* The shares are those that were measured, and about a half more. */
enum { SOME = 1 << 16, POINTERS = 4 << 20, OPEN = 64 << 20 };

const call calls[] = {
    {"check", check, 1.5, 0, 0},
    {"check, unique names", check_unique, 5, SOME, 8},
    {"feed", feed, 4, 0, 0},
    {"rows", list_rows, 12, SOME, 64},
    {"index", index_and_find, 16, SOME, 72},
    {"at", look_up, 3, SOME, 0},
    {"at, deep", look_up_deep, 3, POINTERS, 0},
    {"at, many", look_up_many, 10, POINTERS, 0},
    {"elements", list_elements, 10, SOME, 8},
    {"lines", read_lines, 6, 4 * SOME, 0},
    {"values", give_values, 4, SOME, 1},
    {"document", edit, 75, SOME, 6},
    {"runs", make_runs, 2, POINTERS, 0},
    {"deep runs", make_deep_runs, 5, OPEN, 0},
};
const size_t call_count = sizeof calls / sizeof calls[0];
