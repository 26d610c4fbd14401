/* Many pointers at once, and indexes that are kept: beside jx_at and jx_rows on the same bytes, what each status says,
 * and each request for memory refused in turn. Linked with --wrap=malloc and --wrap=realloc. */
#define TEST "indexes"
#define REFUSES_MEMORY
#include "testing.h"

/* How many pointers there are, and as many again, each of which there is twice. */
enum { COUNT = 16, MANY = 2 * COUNT, ROOM = 64 };

static const char *const texts[] = {
    "{\"a\":[1,{\"b\":2}],\"\":null,\"m~n\":true,\"x/y\":\"\\u00e9\"}",
    "\xEF\xBB\xBF [10,20,[[]],-0.5e+3]",
    "{\"a\":1,\"\\u0061\":{\"a\":2,\"a\":3},\"\\ud800\":4}",
    "{\"a\":{\"b\":[1,2,3]}",
    "nulx",
    "",
    "[[[[]]]]",
    "7",
};

static const char *const spellings[COUNT] = {
    "", "/a", "/a/1/b", "/a/1/b/0", "/", "/m~0n", "/x~1y", "/1", "/01", "/-", "/4", "a", "/~2", "/\xC3", "/0/0/0/0", "/99999999999999999999",
};

static int is_same(const jx_answer *a, const jx_answer *b) {
    return a->outcome == b->outcome && a->kind == b->kind && a->at == b->at && a->span.start == b->span.start && a->span.end == b->span.end;
}

static int is_same_row(const jx_row *a, const jx_row *b) {
    return a->kind == b->kind && a->span.start == b->span.start && a->span.end == b->span.end && a->name.start == b->name.start &&
           a->name.end == b->name.end && a->parent == b->parent && a->place == b->place;
}

static void fill(jx_pointer *pointers, size_t count) {
    for (size_t at = 0; at < count; at++) {
        pointers[at].bytes = bytes(spellings[at % COUNT]);
        pointers[at].size = strlen(spellings[at % COUNT]);
    }
}

/* One text by one sum of flags: the answers are those of jx_at, the rows those of jx_rows. */
static void one_text(const char *text, const jx_settings *settings, size_t line) {
    jx_pointer pointers[MANY];
    jx_answer answers[COUNT + 1];
    jx_answer many[MANY];
    jx_answer before;
    jx_row rows[ROOM];
    jx_verdict verdict = {77, 99};
    jx_verdict told = {77, 99};
    jx_index index = {0};
    size_t count = 99;
    const size_t size = strlen(text);
    fill(pointers, MANY);
    memset(answers, 0x5A, sizeof answers);
    before = answers[COUNT];
    expect(jx_at_all(bytes(text), size, settings, pointers, COUNT, answers, COUNT + 1) == JX_OK, "many pointers are answered", line);
    expect(is_same(&answers[COUNT], &before), "the rest of the buffer is as it was", line);
    expect(jx_at_all(bytes(text), size, settings, pointers, MANY, many, MANY) == JX_OK, "more pointers are answered", line);
    expect(jx_at_all(bytes(text), size, settings, pointers, COUNT + 1, answers, COUNT) == JX_OK, "one more pointer than answers", line);
    expect(jx_check(bytes(text), size, settings, &verdict) == JX_OK, "the text is checked", line);
    expect(jx_index_new(bytes(text), size, settings, &index, &told) == JX_OK, "an index is made, or none", line);
    expect(told.kind == verdict.kind && told.offset == verdict.offset, "its verdict is that of a check", line);
    expect((index.inside != NULL) == (verdict.kind == JX_ACCEPTED), "there is an index exactly of a text", line);
    for (size_t at = 0; at < COUNT; at++) {
        jx_answer wanted = {{77, 77}, 77, 77, 77};
        jx_answer found = {{77, 77}, 77, 77, 77};
        jx_answer alone = {{77, 77}, 77, 77, 77};
        if (jx_at(bytes(text), size, pointers[at].bytes, pointers[at].size, settings, &wanted) != JX_OK) exit(2);
        expect(is_same(&answers[at], &wanted), "among many, a pointer is answered as alone", line * 100 + at);
        expect(is_same(&many[at], &wanted) && is_same(&many[COUNT + at], &wanted), "among more, too", line * 100 + at);
        expect(jx_at_all(bytes(text), size, settings, &pointers[at], 1, &alone, 1) == JX_OK && is_same(&alone, &wanted), "one of one", line * 100 + at);
        if (index.inside != NULL) {
            expect(jx_index_find(&index, pointers[at].bytes, pointers[at].size, &found) == JX_OK, "an index answers", line * 100 + at);
            expect(is_same(&found, &wanted), "an index answers the same", line * 100 + at);
        }
    }
    if (jx_rows(bytes(text), size, settings, rows, ROOM, &count, &told) != JX_OK || count > ROOM) exit(2);
    for (size_t at = 0; at < count; at++) {
        jx_row row;
        expect(jx_index_row(&index, at, &row) == JX_OK && is_same_row(&row, &rows[at]), "a row", line * 100 + at);
    }
    const uint32_t behind = verdict.kind == JX_ACCEPTED ? JX_OUT_OF_BOUNDS : JX_NO_INDEX;
    rows[0].kind = 99;
    expect(jx_index_row(&index, count, &rows[0]) == behind && rows[0].kind == 99, "no row behind the last", line);
    expect(jx_index_row(&index, SIZE_MAX, &rows[0]) == behind && rows[0].kind == 99, "no row far behind it", line);
    jx_index_free(&index);
    expect(index.inside == NULL, "it is freed", line);
}

/* What the standard says of some of them, so that the comparison rests on something. */
static void answers_by_hand(void) {
    const jx_settings usual = {JX_DEPTH_DEFAULT, 0};
    jx_pointer pointers[COUNT];
    jx_answer answers[COUNT];
    const jx_answer wanted[] = {
        {{0, 51}, 0, JX_FOUND, JX_OBJECT}, {{5, 16}, 0, JX_FOUND, JX_ARRAY}, {{13, 14}, 0, JX_FOUND, JX_NUMBER}, {{0, 0}, 3, JX_NOT_A_CONTAINER, 0},
        {{20, 24}, 0, JX_FOUND, JX_NULL},  {{31, 35}, 0, JX_FOUND, JX_TRUE}, {{42, 50}, 0, JX_FOUND, JX_STRING}, {{0, 0}, 0, JX_NO_SUCH_MEMBER, 0},
    };
    fill(pointers, COUNT);
    memset(answers, 0x5A, sizeof answers);
    expect(jx_at_all(bytes(texts[0]), strlen(texts[0]), &usual, pointers, COUNT, answers, COUNT) == JX_OK, "many pointers", 0);
    for (size_t at = 0; at < sizeof wanted / sizeof wanted[0]; at++) {
        expect(is_same(&answers[at], &wanted[at]), "an answer by hand", at);
    }
    expect(answers[11].outcome == JX_NO_SLASH && answers[12].outcome == JX_BAD_ESCAPE && answers[13].outcome == JX_NOT_UTF8, "no pointers", 0);
}

/* Fewer answers than pointers, none of either, and settings that are refused. */
static void buffers(void) {
    const jx_settings usual = {JX_DEPTH_DEFAULT, 0};
    const jx_settings wrong[] = {{JX_DEPTH_MAX + 1, 0}, {0, 4}};
    const uint32_t told[] = {JX_DEPTH_TOO_GREAT, JX_UNKNOWN_FLAG};
    jx_pointer pointers[COUNT];
    jx_answer answers[COUNT];
    jx_answer before;
    fill(pointers, COUNT);
    memset(answers, 0x5A, sizeof answers);
    before = answers[2];
    expect(jx_at_all(bytes("[1]"), 3, &usual, pointers, COUNT, answers, 2) == JX_OK, "room for two", 0);
    expect(answers[0].outcome == JX_FOUND && answers[1].outcome == JX_NOT_AN_INDEX && is_same(&answers[2], &before), "two are put", 0);
    expect(jx_at_all(bytes("[1]"), 3, &usual, pointers, 1, answers + 1, 2) == JX_OK && answers[1].outcome == JX_FOUND && is_same(&answers[2], &before), "one pointer", 0);
    expect(jx_at_all(bytes("[1]"), 3, &usual, pointers, 1, answers + 2, 0) == JX_OK && is_same(&answers[2], &before), "one pointer and no room", 0);
    expect(jx_at_all(bytes("[1]"), 3, &usual, pointers, 0, answers + 2, 2) == JX_OK && is_same(&answers[2], &before), "no pointers", 0);
    expect(jx_at_all(bytes("[1]"), 3, &usual, pointers, COUNT, answers + 2, 0) == JX_OK && is_same(&answers[2], &before), "no room", 0);
    for (size_t at = 0; at < 2; at++) {
        jx_index index = {0};
        jx_verdict verdict = {77, 99};
        expect(jx_at_all(bytes("1"), 1, &wrong[at], pointers, COUNT, answers + 2, 1) == told[at] && is_same(&answers[2], &before), "wrong settings", at);
        expect(jx_index_new(bytes("1"), 1, &wrong[at], &index, &verdict) == told[at] && index.inside == NULL && verdict.kind == 99, "no index by them", at);
    }
}

/* An index takes the place of another one, or none does; a struct without one is told, and null pointers are. */
static void statuses(void) {
    const jx_settings usual = {JX_DEPTH_DEFAULT, 0};
    const jx_settings wrong = {JX_DEPTH_MAX + 1, 0};
    jx_index index = {0};
    jx_verdict verdict = {77, 99};
    jx_answer answer = {{77, 77}, 77, 77, 77};
    jx_row row;
    row.kind = 99;
    jx_index_free(NULL);
    jx_index_free(&index);
    expect(jx_index_find(&index, bytes(""), 0, &answer) == JX_NO_INDEX && answer.outcome == 77, "no index finds nothing", 0);
    expect(jx_index_row(&index, 0, &row) == JX_NO_INDEX && row.kind == 99, "no index has no row", 0);
    expect(jx_index_new(bytes("1"), 1, &usual, NULL, &verdict) == JX_NO_INDEX && jx_index_new(NULL, 1, NULL, NULL, NULL) == JX_NO_INDEX, "a null index", 0);
    expect(jx_index_find(NULL, bytes(""), 0, &answer) == JX_NO_INDEX && jx_index_row(NULL, 0, &row) == JX_NO_INDEX, "a null index", 1);
    expect(jx_index_new(NULL, 1, &usual, &index, &verdict) == JX_NULL_POINTER, "a null text of a byte", 0);
    expect(jx_index_new(bytes("\xEF\xBB\xBF" "1"), 4, NULL, &index, &verdict) == JX_OK && verdict.kind == JX_STOPPED && verdict.offset == 0, "null settings", 0);
    verdict = (jx_verdict){77, 99};
    expect(jx_index_new(bytes("1"), 1, &usual, &index, NULL) == JX_NULL_POINTER && index.inside == NULL && verdict.kind == 99, "a null verdict", 0);
    expect(jx_index_new(NULL, 0, &usual, &index, &verdict) == JX_OK && index.inside == NULL && verdict.kind == JX_TRUNCATED, "a null text of no byte", 0);
    expect(jx_index_new(bytes("[1]"), 3, &usual, &index, &verdict) == JX_OK && index.inside != NULL && verdict.kind == JX_ACCEPTED, "an index", 0);
    expect(jx_index_find(&index, NULL, 1, &answer) == JX_NULL_POINTER && jx_index_find(&index, bytes(""), 0, NULL) == JX_NULL_POINTER, "a null pointer", 0);
    expect(jx_index_row(&index, 0, NULL) == JX_NULL_POINTER && answer.outcome == 77, "a null row", 0);
    expect(jx_index_find(&index, NULL, 0, &answer) == JX_OK && answer.outcome == JX_FOUND && answer.span.end == 3, "a null pointer of no byte is the empty one", 0);
    expect(jx_index_new(bytes("{}"), 2, &wrong, &index, &verdict) == JX_DEPTH_TOO_GREAT, "wrong settings make none", 0);
    expect(jx_index_row(&index, 0, &row) == JX_OK && row.kind == JX_ARRAY, "the index stays where none is made", 0);
    expect(jx_index_new(bytes("{}"), 2, &usual, &index, &verdict) == JX_OK && jx_index_row(&index, 0, &row) == JX_OK && row.kind == JX_OBJECT, "another one takes its place", 0);
    expect(jx_index_new(bytes("{"), 1, &usual, &index, &verdict) == JX_OK && index.inside == NULL && verdict.kind == JX_TRUNCATED, "none takes its place", 0);
    expect(jx_index_row(&index, 0, &row) == JX_NO_INDEX, "that is told", 0);
    jx_index_free(&index);
}

/* Each request refused in turn: there is no memory, and nothing has changed. */
static void refusals(void) {
    const jx_settings settings[] = {{JX_DEPTH_DEFAULT, 0}, {JX_DEPTH_DEFAULT, JX_UNIQUE_NAMES}};
    static const char *const text = "{\"a\":[1,{\"b\":2}],\"c\":{\"d\":[],\"e\":[[3]]}}";
    const size_t counts[] = {COUNT, MANY};
    jx_pointer pointers[MANY];
    jx_answer answers[MANY];
    jx_answer before[MANY];
    fill(pointers, MANY);
    for (size_t both = 0; both < 4; both++) {
        const size_t at = both % 2;
        const size_t count = counts[both / 2];
        long nth = 0;
        for (uint32_t status = JX_NO_MEMORY; status != JX_OK; nth++) {
            memset(answers, 0x5A, sizeof answers);
            memcpy(before, answers, sizeof answers);
            granted = nth;
            status = jx_at_all(bytes(text), strlen(text), &settings[at], pointers, count, answers, count);
            granted = -1;
            if (status == JX_OK) break;
            expect(status == JX_NO_MEMORY && memcmp(answers, before, sizeof answers) == 0, "many pointers without memory", (size_t)nth);
            if (nth == 100000) exit(2);
        }
        expect(nth > 3 && answers[2].outcome == JX_FOUND && answers[count - COUNT + 2].outcome == JX_FOUND, "they ask for memory", both);
    }
    for (size_t at = 0; at < 2; at++) {
        long nth = 0;
        jx_index index = {0};
        jx_verdict verdict = {77, 99};
        if (jx_index_new(bytes("[1]"), 3, &settings[at], &index, &verdict) != JX_OK) exit(2);
        verdict.kind = 99;
        for (uint32_t status = JX_NO_MEMORY; status != JX_OK; nth++) {
            jx_row row;
            granted = nth;
            status = jx_index_new(bytes(text), strlen(text), &settings[at], &index, &verdict);
            granted = -1;
            if (status == JX_OK) break;
            expect(status == JX_NO_MEMORY && verdict.kind == 99, "an index without memory", (size_t)nth);
            expect(jx_index_row(&index, 0, &row) == JX_OK && row.kind == JX_ARRAY, "the older index stays", (size_t)nth);
            if (nth == 100000) exit(2);
        }
        expect(nth > 3 && verdict.kind == JX_ACCEPTED, "an index asks for memory", at);
        granted = 0;
        expect(jx_index_find(&index, bytes("/c/e/0/0"), 8, &answers[0]) == JX_OK && answers[0].outcome == JX_FOUND, "a look-up takes no memory", at);
        jx_row row;
        expect(jx_index_row(&index, 8, &row) == JX_OK && row.kind == JX_ARRAY, "a row takes no memory", at);
        granted = -1;
        jx_index_free(&index);
        jx_index_free(&index);
    }
}

int main(void) {
    for (size_t line = 0; line < sizeof texts / sizeof texts[0]; line++) {
        for (uint32_t flags = 0; flags < 4; flags++) {
            const jx_settings deep = {JX_DEPTH_DEFAULT, flags};
            const jx_settings shallow = {2, flags};
            one_text(texts[line], &deep, line * 10 + flags);
            one_text(texts[line], &shallow, line * 10 + 4 + flags);
        }
    }
    answers_by_hand();
    buffers();
    statuses();
    refusals();
    return counted();
}
