/* How much of a stack each call takes: each runs in a thread of its own, over a stack that is painted, and what is no longer painted is
 * counted. No call may take more than jx.h says. */
#define _DEFAULT_SOURCE
#define TEST "stack"
#include "testing.h"

#include <pthread.h>
#include <sys/mman.h>

enum { STACK = 1 << 20, PAINT = 0xA5, SIZE = 1 << 18, ROOM = 1 << 23 };

static char text[SIZE];
static size_t size;
static uint8_t room[ROOM];
/* By these a call reads that takes flags, and by the others all the rest. */
static jx_settings settings, any;

static const jx_pointer *pointers(size_t *count) {
    static jx_pointer all[] = {{NULL, 0}, {NULL, 0}, {NULL, 0}};
    static const char *const spelt_as[] = {"", "/rows/3/a/0", "/last"};
    for (size_t at = 0; at < 3; at++) all[at] = (jx_pointer){bytes(spelt_as[at]), strlen(spelt_as[at])};
    *count = 3;
    return all;
}

static void nothing(void) {}

static void check(void) {
    jx_verdict verdict;
    expect(jx_check(bytes(text), size, &settings, &verdict) == JX_OK && verdict.kind == JX_ACCEPTED, "check", settings.flags);
}

static void compact(void) {
    jx_verdict verdict;
    size_t told;
    expect(jx_compact(bytes(text), size, &settings, room, ROOM, &told, &verdict) == JX_OK, "compact", 0);
}

/* Of the text without its end, and of a name. */
static void explain(void) {
    jx_verdict verdict;
    jx_place place;
    size_t told;
    expect(jx_check(bytes(text), size - 1, &settings, &verdict) == JX_OK && jx_explain(bytes(text), size - 1, &settings, &verdict, room, ROOM, &told, &place) == JX_OK, "explain", 0);
    expect(jx_explain(bytes(text), size, &settings, &(jx_verdict){1, JX_REPEATED_NAME}, room, ROOM, &told, &place) == JX_OK, "explain a name", 0);
}

static void read_by_slices(void) {
    static jx_reader reader;
    jx_verdict verdict;
    expect(jx_reader_start(&reader, &any) == JX_OK, "start", 0);
    for (size_t at = 0; at < size; at += 1000) jx_reader_feed(&reader, bytes(text) + at, size - at < 1000 ? size - at : 1000);
    expect(jx_reader_verdict(&reader, &verdict) == JX_OK && verdict.kind == JX_ACCEPTED, "verdict", 0);
}

static void look_up(void) {
    static jx_answer answers[3];
    size_t count;
    const jx_pointer *all = pointers(&count);
    jx_finder finder = {0};
    expect(jx_at(bytes(text), size, all[1].bytes, all[1].size, &settings, answers) == JX_OK, "at", settings.flags);
    expect(jx_at_all(bytes(text), size, &settings, all, count, answers, count) == JX_OK, "at_all", settings.flags);
    expect(jx_finder_new(all, count, &any, &finder) == JX_OK && jx_finder_feed(&finder, bytes(text), size) == JX_OK &&
               jx_finder_end(&finder, answers, count) == JX_OK && answers[2].outcome == JX_FOUND, "finder", 0);
}

static void index_it(void) {
    static jx_row row;
    jx_answer answer;
    jx_verdict verdict;
    jx_index index = {0};
    jx_shelf shelf = {0}, other = {0};
    size_t count;
    jx_text told;
    expect(jx_rows(bytes(text), size, &settings, &row, 0, &count, &verdict) == JX_OK, "rows", settings.flags);
    expect(jx_index_new(bytes(text), size, &settings, &index, &verdict) == JX_OK && jx_index_find(&index, bytes("/last"), 5, &answer) == JX_OK &&
               jx_index_row(&index, 3, &row) == JX_OK, "index", settings.flags);
    expect(jx_shelf_new(&shelf) == JX_OK && jx_shelf_share(&shelf, &other) == JX_OK && jx_shelf_put(&shelf, &index) == JX_OK &&
               jx_shelf_find(&other, bytes("/last"), 5, &answer) == JX_OK && jx_shelf_row(&other, 3, &row) == JX_OK && jx_shelf_text(&other, &told) == JX_OK, "shelf", 0);
    jx_shelf_free(&shelf);
    jx_shelf_free(&other);
}

static void values_and_lines(void) {
    jx_values values = {0};
    static jx_line refused[4096];
    jx_lines lines = {0};
    jx_outcome outcome;
    jx_line last;
    jx_line_counts counts;
    size_t told;
    jx_element element;
    expect(jx_values_new(bytes("/rows"), 5, &any, &values) == JX_OK && jx_values_feed(&values, bytes(text), size) == JX_OK &&
               jx_values_take(&values, room, ROOM, &told) == JX_OK && jx_values_end(&values, &outcome) == JX_OK && outcome.kind == JX_FOUND, "values", 0);
    expect(jx_lines_new(&any, &lines) == JX_OK && jx_lines_feed(&lines, bytes(text), size) == JX_OK && jx_lines_take(&lines, refused, 4096, &told) == JX_OK &&
               jx_lines_end(&lines, &last, &counts) == JX_OK, "lines", 0);
    jx_lines_free(&lines);
    expect(jx_elements(bytes(text), size, &settings, &element, 0, &told) == JX_OK, "elements", settings.flags);
}

static void save_and_find(void) {
    static uint8_t index[ROOM];
    jx_save save = {0};
    jx_saved saved = {0};
    jx_verdict verdict;
    size_t told = 0, count;
    jx_span need;
    static jx_answer answers[3];
    static jx_part parts[8];
    const jx_pointer *all = pointers(&count);
    expect(jx_save_new_with_names(&any, 4096, &save) == JX_OK && jx_save_feed(&save, bytes(text), size) == JX_OK &&
               jx_save_end(&save, &told, &verdict) == JX_OK && jx_save_take(&save, index, ROOM, &told) == JX_OK, "save", 0);
    jx_save_free(&save);
    expect(jx_saved_open(index, told, size, &saved) == JX_OK && jx_saved_seek(&saved, all, count) == JX_OK, "saved", 0);
    while (jx_saved_needs(&saved, &need) == JX_OK && need.end != 0) jx_saved_give(&saved, bytes(text) + need.start, need.end - need.start);
    expect(jx_saved_answers(&saved, answers, count) == JX_OK, "answers", 0);
    expect(jx_saved_split(&saved, &answers[0].span, 4) == JX_OK, "split", 0);
    while (jx_saved_needs(&saved, &need) == JX_OK && need.end != 0) jx_saved_give(&saved, bytes(text) + need.start, need.end - need.start);
    expect(jx_saved_parts(&saved, parts, 8, &told) == JX_OK, "parts", 0);
    jx_saved_free(&saved);
}

static void edit(void) {
    jx_document document = {0};
    jx_verdict verdict;
    expect(jx_document_new(bytes(text), size, &any, &document) == JX_OK && jx_document_verdict(&document, &verdict) == JX_OK, "document", 0);
    expect(jx_document_edit(&document, 1, 1, bytes("\"x\":[{}],"), 9) == JX_OK && jx_document_verdict(&document, &verdict) == JX_OK && verdict.kind == JX_ACCEPTED, "edit", 0);
    expect(jx_document_copy(&document, 0, room, 100) == JX_OK, "copy", 0);
    jx_document_free(&document);
}

static void join_runs(void) {
    static uint8_t left[ROOM], right[ROOM];
    jx_verdict verdict;
    size_t left_size = 0, right_size = 0, joined = 0;
    expect(jx_run_of(bytes(text), size / 2, 0, any.depth, left, ROOM, &left_size) == JX_OK && jx_run_of(bytes(text) + size / 2, size - size / 2, size / 2, any.depth, right, ROOM, &right_size) == JX_OK, "runs", 0);
    expect(jx_run_join(left, left_size, right, right_size, room, ROOM, &joined) == JX_OK && jx_run_verdict(room, joined, 0, size, &verdict) == JX_OK && verdict.kind == JX_ACCEPTED, "join", 0);
}

static void *run(void *given) {
    (*(void (**)(void))given)();
    return NULL;
}

/* How many bytes of its stack a call takes, with those that a thread takes. */
static size_t taken_by(void (*call)(void)) {
    pthread_attr_t attributes;
    pthread_t thread;
    size_t at = 0;
    uint8_t *stack = mmap(NULL, STACK, PROT_READ | PROT_WRITE, MAP_PRIVATE | MAP_ANONYMOUS, -1, 0);
    if (stack == MAP_FAILED) exit(2);
    memset(stack, PAINT, STACK);
    if (pthread_attr_init(&attributes) != 0 || pthread_attr_setstack(&attributes, stack, STACK) != 0) exit(2);
    if (pthread_create(&thread, &attributes, run, &call) != 0) exit(2);
    pthread_join(thread, NULL);
    while (at < STACK && stack[at] == PAINT) at++;
    pthread_attr_destroy(&attributes);
    munmap(stack, STACK);
    return STACK - at;
}

/* Rows of records, then brackets as deep as the settings let them be. */
static void write_text(void) {
    size = (size_t)sprintf(text, "{\"rows\":[");
    for (size_t row = 0; row < 2000; row++) size += (size_t)sprintf(text + size, "%s{\"a\":[%zu,\"\\u00e9\",-1.5e3],\"b\":{\"c\":null}}", row == 0 ? "" : ",\n ", row);
    size += (size_t)sprintf(text + size, "],\"deep\":");
    for (size_t level = 0; level < any.depth - 1; level++) text[size++] = '[';
    for (size_t level = 0; level < any.depth - 1; level++) text[size++] = ']';
    size += (size_t)sprintf(text + size, ",\"last\":1}");
}

/* How many bytes a call takes at most, of texts as deep as this. */
static size_t most_by(uint32_t depth) {
    static void (*const calls[])(void) = {check, compact, explain, read_by_slices, look_up, index_it, values_and_lines, save_and_find, edit, join_runs};
    const size_t thread = taken_by(nothing);
    size_t most = 0;
    any.depth = settings.depth = depth;
    write_text();
    for (settings.flags = 0; settings.flags <= JX_UNIQUE_NAMES; settings.flags += JX_UNIQUE_NAMES) {
        for (size_t at = 0; at < sizeof calls / sizeof calls[0]; at++) {
            const size_t taken = taken_by(calls[at]) - thread;
            expect(taken <= JX_STACK_MOST, "no call takes more of the stack than jx.h says", taken);
            if (taken > most) most = taken;
        }
    }
    return most;
}

int main(void) {
    const size_t usual = most_by(JX_DEPTH_DEFAULT), deepest = most_by(JX_DEPTH_MAX);
    fprintf(stderr, TEST ": at most %zu bytes, of the deepest texts %zu\n", usual, deepest);
    return counted();
}
