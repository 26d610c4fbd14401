/* The values of a container: a few by hand, cut at each byte and in slices of each size; those of each accepted text of the table, by its
 * rows, behind each slice; and each request for memory refused in turn: values FILE. Linked with --wrap=malloc and
 * --wrap=realloc. */
#define TEST "values"
#define REFUSES_MEMORY
#include "testing.h"

enum { MOST = 8192 };

/* ---- a text by the library */

/* The lines that were taken. */
typedef struct told {
    uint8_t bytes[MOST];
    size_t size;
} told;

/* Takes what waits: first into too little room, where there is something, then into just enough. */
static void take(jx_values *values, told *all, size_t line) {
    size_t size = 99;
    const uint32_t status = jx_values_take(values, NULL, 0, &size);
    expect(status == (size == 0 ? JX_OK : JX_NO_ROOM), "no room for values", line);
    if (size > MOST - all->size) exit(2);
    uint8_t *lines = malloc(size + (size == 0));
    if (lines == NULL) exit(2);
    const size_t waiting = size;
    if (size > 1) expect(jx_values_take(values, lines, size - 1, &size) == JX_NO_ROOM && size == waiting, "too little room", line);
    expect(jx_values_take(values, lines, size, &size) == JX_OK && size == waiting, "values are taken", line);
    memcpy(all->bytes + all->size, lines, size);
    all->size += size;
    free(lines);
    expect(jx_values_take(values, NULL, 0, &size) == JX_OK && size == 0, "each value is taken once", line);
}

/* Feeds bytes that end where their memory does, so that one byte too many that is read is seen. */
static void feed(jx_values *values, const uint8_t *bytes, size_t size, size_t line) {
    uint8_t *copy = malloc(size + (size == 0));
    if (copy == NULL) exit(2);
    memcpy(copy, bytes, size);
    expect(jx_values_feed(values, copy, size) == JX_OK, "a slice is read", line);
    free(copy);
}

/* What is due of a beginning: what `wanted` of it says, if it is asked. */
typedef struct due {
    const uint8_t *lines; /* of all values */
    size_t count;         /* of values, */
    size_t ends[MOST];    /* where the line of each ends, */
    size_t behind[MOST];  /* and where the comma or bracket behind it stands */
} due;

static size_t due_of(const due *wanted, size_t length) {
    size_t size = 0;
    for (size_t k = 0; k < wanted->count; k++) {
        if (wanted->behind[k] < length) size = wanted->ends[k];
    }
    return size;
}

/* By slices of one size, the first of which may have another. */
static jx_outcome by_slices(const char *pointer, const uint8_t *bytes, size_t size, const jx_settings *settings, size_t first, size_t step, const due *wanted, told *all, size_t line) {
    jx_values values = {0};
    jx_outcome outcome;
    memset(&outcome, 0x5A, sizeof outcome);
    all->size = 0;
    expect(jx_values_new((const uint8_t *)pointer, strlen(pointer), settings, &values) == JX_OK, "a stream", line);
    for (size_t at = 0, next = first;; next = step) {
        if (next > size - at) next = size - at;
        feed(&values, bytes + at, next, line);
        take(&values, all, line);
        at += next;
        if (wanted != NULL) {
            const size_t due_now = due_of(wanted, at);
            expect(all->size == due_now && memcmp(all->bytes, wanted->lines, due_now) == 0, "what is due of a beginning", line);
        }
        if (at == size) break;
    }
    expect(jx_values_end(&values, &outcome) == JX_OK && values.inside == NULL, "the end", line);
    expect(jx_values_end(&values, &outcome) == JX_NO_VALUES, "it ends once", line);
    jx_values_free(&values);
    return outcome;
}

/* ---- a few by hand */

static const struct {
    const char *text, *pointer, *lines;
    jx_outcome outcome;
} few[] = {
    {"[1,2,3x", "", "1\n2\n", {6, JX_TEXT_STOPPED}},
    {"[1,2 ", "", "1\n", {0, JX_TEXT_TRUNCATED}},
    {"[1,2]", "", "1\n2\n", {0, JX_FOUND}},
    {"[1,2]x", "", "1\n2\n", {5, JX_TEXT_STOPPED}},
    {" { \"a\" : [ 1 , { \"b\" : \"x y\" } ] , \"c\" : -1.50E+2 } ", "", "[1,{\"b\":\"x y\"}]\n-1.50E+2\n", {0, JX_FOUND}},
    {"[]", "", "", {0, JX_FOUND}},
    {" {\n} ", "", "", {0, JX_FOUND}},
    {"[ [ ] , { } , \"\" ]", "", "[]\n{}\n\"\"\n", {0, JX_FOUND}},
    {"[\"\\\" , \\\\\" , \"]\"]", "", "\"\\\" , \\\\\"\n\"]\"\n", {0, JX_FOUND}},
    {"12", "", "", {0, JX_NOT_A_CONTAINER}},
    {"\"[1,2]\"", "", "", {0, JX_NOT_A_CONTAINER}},
    {"", "", "", {0, JX_TEXT_TRUNCATED}},
    {"{\"a\":{\"b\":[7, 8]},\"c\":[9]}", "/a/b", "7\n8\n", {0, JX_FOUND}},
    {"{\"a\":{\"b\":[7, 8]},\"c\":[9]}", "/a", "[7,8]\n", {0, JX_FOUND}},
    {"{\"a\":{\"b\":[7, 8]},\"c\":[9]}", "/c", "9\n", {0, JX_FOUND}},
    {"{\"a\":{\"b\":[7, 8]},\"c\":[9]}", "/a/b/1", "", {3, JX_NOT_A_CONTAINER}},
    {"{\"a\":{\"b\":[7, 8]},\"c\":[9]}", "/c/0/x", "", {2, JX_NOT_A_CONTAINER}},
    {"{\"a\":{\"b\":[7, 8]},\"c\":[9]}", "/a/d", "", {1, JX_NO_SUCH_MEMBER}},
    {"[[1],[2, 3],[4]]", "/1", "2\n3\n", {0, JX_FOUND}},
    {"[[1],[2, 3],[4]]", "/3", "", {0, JX_PAST_END}},
    {"[[1],[2, 3],[4]]", "/-", "", {0, JX_AFTER_LAST}},
    {"[[1],[2, 3],[4]]", "/01", "", {0, JX_NOT_AN_INDEX}},
    {"{\"a\":[1],\"\\u0061\":[2]}", "/a", "1\n", {0, JX_NAME_REPEATED}},
    {"{\"a\":[1,2],\"a\":[2]", "/a", "1\n2\n", {0, JX_TEXT_TRUNCATED}},
    {"{\"x\":{\"a/b~\":[5]}}", "/x/a~1b~0", "5\n", {0, JX_FOUND}},
    {"{\"\":[true,false,null]}", "/", "true\nfalse\nnull\n", {0, JX_FOUND}},
    {"[1,[[[2]]],3]", "", "1\n", {5, JX_TEXT_TOO_DEEP}},
    {"\xEF\xBB\xBF[1]", "", "", {0, JX_TEXT_STOPPED}},
};

static void each_of_few(void) {
    static told all;
    for (size_t n = 0; n < sizeof few / sizeof *few; n++) {
        const uint8_t *text = (const uint8_t *)few[n].text;
        const size_t size = strlen(few[n].text);
        for (size_t first = 0; first <= size; first++) {
            for (size_t step = 1; step <= 4; step++) {
                const jx_outcome outcome = by_slices(few[n].pointer, text, size, &(jx_settings){3, 0}, first, step < 4 ? step : size + 1, NULL, &all, n);
                expect(all.size == strlen(few[n].lines) && memcmp(all.bytes, few[n].lines, all.size) == 0, "the values of a text", n);
                expect(outcome.at == few[n].outcome.at && outcome.kind == few[n].outcome.kind, "its outcome", n);
            }
        }
    }
    const jx_outcome outcome = by_slices("", (const uint8_t *)"\xEF\xBB\xBF [1]", 7, &(jx_settings){3, JX_IGNORE_MARK}, 1, 1, NULL, &all, 0);
    expect(all.size == 2 && memcmp(all.bytes, "1\n", 2) == 0 && outcome.kind == JX_FOUND, "a mark that is ignored", 0);
}

/* ---- the accepted texts of the table, by their rows */

static due wanted;
static jx_row rows[MOST];
static uint8_t wanted_lines[MOST];

/* The children of a row, by the calls on whole texts. */
static void list_due(const uint8_t *text, size_t size, size_t row, size_t count) {
    size_t at = 0;
    wanted.lines = wanted_lines;
    wanted.count = 0;
    for (size_t k = row + 1; k < count; k++) {
        const jx_span span = rows[k].span;
        jx_verdict verdict;
        size_t form;
        if (rows[k].parent != row) continue;
        if (jx_compact(text + span.start, span.end - span.start, &(jx_settings){JX_DEPTH_MAX, 0}, wanted_lines + at, MOST - at - 1, &form, &verdict) != JX_OK || verdict.kind != JX_ACCEPTED) exit(2);
        at += form;
        wanted_lines[at++] = '\n';
        wanted.ends[wanted.count] = at;
        wanted.behind[wanted.count] = span.end;
        while (wanted.behind[wanted.count] < size && strchr(" \t\r\n", text[wanted.behind[wanted.count]]) != NULL) wanted.behind[wanted.count]++;
        wanted.count++;
    }
}

/* The pointer to a child of the root, where its name needs no care; "" for the root itself. */
static int path_to(const uint8_t *text, size_t row, char *pointer) {
    const jx_span name = rows[row].name;
    pointer[0] = 0;
    if (row == 0) return 1;
    if (rows[row].parent != 0) return 0;
    if (name.end == 0) return snprintf(pointer, 64, "/%zu", rows[row].place) > 0;
    for (size_t k = name.start; k < name.end; k++) {
        if (text[k] == '\\' || text[k] == '~' || text[k] == '/' || text[k] == 0) return 0;
    }
    return snprintf(pointer, 64, "/%.*s", (int)(name.end - name.start - 2), (const char *)text + name.start + 1) < 64;
}

static void each_container(const uint8_t *text, size_t size, const jx_settings *settings, size_t line) {
    static told all;
    jx_verdict verdict;
    size_t count;
    if (jx_rows(text, size, settings, rows, MOST, &count, &verdict) != JX_OK || count > MOST) exit(2);
    for (size_t row = 0; row < count && row < 40; row++) {
        char pointer[64];
        jx_answer answer;
        if (!path_to(text, row, pointer)) continue;
        if (jx_at(text, size, (const uint8_t *)pointer, strlen(pointer), settings, &answer) != JX_OK) exit(2);
        if (answer.outcome != JX_FOUND) continue;
        const int is_container = answer.kind == JX_ARRAY || answer.kind == JX_OBJECT;
        list_due(text, size, row, count);
        for (size_t step = 1; step <= size && step < 400; step = step < 4 ? step + 1 : 3 * step) {
            const jx_outcome outcome = by_slices(pointer, text, size, settings, step, step, &wanted, &all, line);
            expect(outcome.kind == (is_container ? JX_FOUND : JX_NOT_A_CONTAINER), "the outcome of a text", line);
        }
    }
}

static void containers_of(const row *row) {
    each_container(row->text, row->size, &(jx_settings){row->depth, 0}, row->line);
    each_container(row->text, row->size, &(jx_settings){row->depth, JX_IGNORE_MARK}, row->line);
}

/* ---- refusals */

/* Each request refused in turn. A stream that wants memory is lost, and told to be. */
static void refusals(void) {
    static const char text[] = "{\"x\":0,\"rows\":[{\"a\":1},[[[2]]],\"a longer string that is kept until it is whole\",4]}";
    static const char lines[] = "{\"a\":1}\n[[[2]]]\n\"a longer string that is kept until it is whole\"\n4\n";
    const size_t half = strlen(text) / 2;
    long requests = 0;
    for (;; requests++) {
        jx_values values = {0};
        jx_outcome outcome = {77, 77};
        uint8_t told_lines[sizeof lines];
        size_t size = 99;
        granted = requests;
        uint32_t status = jx_values_new((const uint8_t *)"/rows", 5, &(jx_settings){8, 0}, &values);
        expect(status == JX_OK || (status == JX_NO_MEMORY && values.inside == NULL), "a stream without memory", 0);
        if (status == JX_OK) status = jx_values_feed(&values, (const uint8_t *)text, half);
        if (status == JX_OK) status = jx_values_feed(&values, (const uint8_t *)text + half, strlen(text) - half);
        if (status == JX_OK) expect(jx_values_take(&values, told_lines, sizeof told_lines, &size) == JX_OK && size == strlen(lines) && memcmp(told_lines, lines, size) == 0, "all is there", 0);
        if (status == JX_OK) status = jx_values_end(&values, &outcome);
        const int is_done = status == JX_OK;
        granted = -1;
        expect(is_done ? outcome.at == 0 && outcome.kind == JX_FOUND : status == JX_NO_MEMORY && outcome.at == 77, "values without memory", 0);
        expect(values.inside == NULL && jx_values_feed(&values, (const uint8_t *)"1", 1) == JX_NO_VALUES, "the stream is lost", 0);
        jx_values_free(&values);
        if (is_done) break;
    }
    expect(requests > 3, "values ask for memory", 0);
}

static void null_pointers_and_settings(void) {
    static const char *const none[] = {"a", "/~", "/~2", "/\xFF", "x/y"};
    jx_values values = {0};
    size_t size = 99;
    uint8_t room[8] = {7};
    jx_outcome outcome = {77, 77};
    expect(jx_values_new(NULL, 0, NULL, NULL) == JX_NO_VALUES && jx_values_feed(NULL, NULL, 0) == JX_NO_VALUES, "no struct", 0);
    expect(jx_values_take(NULL, room, 8, &size) == JX_NO_VALUES && jx_values_end(NULL, &outcome) == JX_NO_VALUES, "no struct", 1);
    jx_values_free(NULL);
    expect(jx_values_feed(&values, (const uint8_t *)"1", 1) == JX_NO_VALUES && jx_values_take(&values, room, 8, &size) == JX_NO_VALUES, "no stream", 0);
    expect(jx_values_end(&values, &outcome) == JX_NO_VALUES && size == 99 && outcome.at == 77 && room[0] == 7, "no stream", 1);
    expect(jx_values_new(NULL, 0, &(jx_settings){65536, 0}, &values) == JX_DEPTH_TOO_GREAT, "depth", 0);
    expect(jx_values_new(NULL, 0, &(jx_settings){1, 4}, &values) == JX_UNKNOWN_FLAG, "flags", 0);
    expect(jx_values_new(NULL, 0, &(jx_settings){1, JX_UNIQUE_NAMES}, &values) == JX_NO_UNIQUE_NAMES, "unique names", 0);
    expect(jx_values_new(NULL, 1, NULL, &values) == JX_NULL_POINTER, "a null pointer", 0);
    for (size_t n = 0; n < sizeof none / sizeof *none; n++) {
        expect(jx_values_new((const uint8_t *)none[n], strlen(none[n]), NULL, &values) == JX_NOT_A_POINTER && values.inside == NULL, "what is no pointer", n);
    }
    expect(jx_values_new(NULL, 0, NULL, &values) == JX_OK && jx_values_feed(&values, NULL, 1) == JX_NULL_POINTER, "null bytes", 0);
    expect(jx_values_take(&values, NULL, 1, &size) == JX_NULL_POINTER && jx_values_take(&values, room, 8, NULL) == JX_NULL_POINTER, "null buffers", 0);
    expect(jx_values_end(&values, NULL) == JX_NULL_POINTER && values.inside != NULL, "a null end", 0);
    /* No byte of the slice is looked at where too many come. */
    expect(jx_values_feed(&values, (const uint8_t *)"[7,", 3) == JX_OK && jx_values_feed(&values, (const uint8_t *)"", SIZE_MAX) == JX_TOO_MANY_BYTES, "too many bytes", 0);
    expect(jx_values_take(&values, room, 8, &size) == JX_OK && size == 2 && memcmp(room, "7\n", 2) == 0, "what waited still waits", 0);
    expect(jx_values_new(NULL, 0, NULL, &values) == JX_OK && jx_values_end(&values, &outcome) == JX_OK && outcome.kind == JX_TEXT_TRUNCATED, "a new one in its place", 0);
    expect(jx_values_new(NULL, 0, NULL, &values) == JX_OK, "one more", 0);
    jx_values moved = values;
    jx_values_free(&moved);
}

int main(int count, char **words) {
    if (count != 2) return 2;
    each_of_few();
    each_row(words[1], containers_of);
    refusals();
    null_pointers_and_settings();
    return counted();
}
