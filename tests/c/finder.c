/* Look-ups that are fed: a few texts cut at each byte and in slices of each size, beside jx_at_all, and each request for memory
 * refused in turn: finder FILE, whose texts are fed too. Linked with --wrap=malloc and --wrap=realloc. */
#define TEST "finder"
#define REFUSES_MEMORY
#include "testing.h"

enum { COUNT = 12, MOST = 1 << 16 };

static const char *const words[COUNT] = {"", "/a", "/a/1", "/a/-", "/a/b~1c", "/0", "/0/a", "/1/\xC3\xA9", "/x", "x", "/~2", "/a/\xFF"};
static jx_pointer pointers[COUNT];

static int same_answer(const jx_answer *a, const jx_answer *b) {
    return a->span.start == b->span.start && a->span.end == b->span.end && a->at == b->at && a->outcome == b->outcome && a->kind == b->kind;
}

static int same_answers(const jx_answer *a, const jx_answer *b, size_t count) {
    for (size_t n = 0; n < count; n++) {
        if (!same_answer(&a[n], &b[n])) return 0;
    }
    return 1;
}

/* Feeds a text by a first slice and then slices of one size. */
static uint32_t by_slices(const uint8_t *text, size_t size, const jx_settings *settings, size_t first, size_t step, jx_answer *answers) {
    jx_finder finder = {0};
    uint32_t status = jx_finder_new(pointers, COUNT, settings, &finder);
    for (size_t at = 0, next = first; status == JX_OK && at < size; next = step) {
        if (next > size - at) next = size - at;
        status = jx_finder_feed(&finder, text + at, next);
        at += next;
    }
    if (status != JX_OK) {
        jx_finder_free(&finder);
        return status;
    }
    status = jx_finder_end(&finder, answers, COUNT);
    return finder.inside == NULL ? status : 99;
}

static void is_found_alike(const uint8_t *text, size_t size, size_t line) {
    const jx_settings settings = {8, JX_IGNORE_MARK};
    jx_answer wanted[COUNT], told[COUNT];
    expect(jx_at_all(text, size, &settings, pointers, COUNT, wanted, COUNT) == JX_OK, "all at once", line);
    for (size_t cut = 0; cut <= size && cut < 120; cut++) {
        expect(by_slices(text, size, &settings, cut, size + 1, told) == JX_OK && same_answers(told, wanted, COUNT), "cut in two", line);
        expect(by_slices(text, size, &settings, 0, cut + 1, told) == JX_OK && same_answers(told, wanted, COUNT), "in slices", line);
    }
}

static const char *const few[] = {
    "", "null", " [1, {\"a\" : [[], true], \"\xC3\xA9\":\"x\"}]\n", "{\"a\":[0,1.5e3],\"x\":{}}", "{\"\\u0061\":{\"b/c\":\"\\\"\"},\"a\":2}",
    "{\"a\":1,\"a\":2}", "[1,]", "{\"a\":[", "[[[[[[[[[1]]]]]]]]]", "\xEF\xBB\xBF[{\"\\u00e9\":0},{\"\\u00E9\":-1}]", "{\"x\":\"\\ud83d\\ude00\"}",
};

static void each_of_table(const char *path) {
    static uint8_t text[MOST];
    FILE *table = fopen(path, "rb");
    size_t line = 100;
    if (table == NULL) exit(2);
    while (fgets((char *)text, sizeof text, table) != NULL) is_found_alike(text, strlen((char *)text), line++);
    fclose(table);
}

/* Each request refused in turn. A look-up that wants memory is lost, and told to be. */
static void refusals(void) {
    static const char text[] = "{\"a\":{\"b/c\":[1]},\"x\":[[[[2]]]],\"a long name that is cut\":3}";
    long requests = 0;
    for (;; requests++) {
        jx_answer told[COUNT];
        jx_finder finder = {0};
        memset(told, 7, sizeof told);
        granted = requests;
        uint32_t status = jx_finder_new(pointers, COUNT, &(jx_settings){8, 0}, &finder);
        expect(status == JX_OK || (status == JX_NO_MEMORY && finder.inside == NULL), "a look-up without memory", 0);
        for (size_t at = 0; status == JX_OK && at < strlen(text); at++) status = jx_finder_feed(&finder, (const uint8_t *)text + at, 1);
        if (status == JX_OK) {
            status = jx_finder_end(&finder, told, COUNT);
            expect(finder.inside == NULL, "it has ended", 0);
        } else {
            expect(status == JX_NO_MEMORY && finder.inside == NULL, "bytes without memory", 0);
        }
        const int is_done = granted >= 0;
        granted = -1;
        expect(jx_finder_feed(&finder, (const uint8_t *)"1", 1) == JX_NO_FINDER, "no more bytes", 0);
        jx_finder_free(&finder);
        if (is_done) {
            expect(status == JX_OK && told[1].outcome == JX_FOUND, "all is there", 0);
            break;
        }
        expect(status == JX_NO_MEMORY && told[0].outcome == 0x07070707, "nothing is written", 0);
    }
    expect(requests > 5, "a look-up asks for memory", 0);
}

static void null_pointers_and_settings(void) {
    jx_finder finder = {0};
    jx_answer answer, other;
    memset(&answer, 7, sizeof answer);
    other = answer;
    expect(jx_finder_new(pointers, 1, NULL, NULL) == JX_NO_FINDER && jx_finder_feed(NULL, NULL, 0) == JX_NO_FINDER && jx_finder_end(NULL, &answer, 1) == JX_NO_FINDER, "no struct", 0);
    jx_finder_free(NULL);
    expect(jx_finder_feed(&finder, (const uint8_t *)"1", 1) == JX_NO_FINDER && jx_finder_end(&finder, &answer, 1) == JX_NO_FINDER, "no look-up", 0);
    expect(jx_finder_new(NULL, 1, NULL, &finder) == JX_NULL_POINTER && finder.inside == NULL, "no pointers", 0);
    expect(jx_finder_new(pointers, 1, &(jx_settings){65536, 0}, &finder) == JX_DEPTH_TOO_GREAT && jx_finder_new(pointers, 1, &(jx_settings){1, 4}, &finder) == JX_UNKNOWN_FLAG, "settings", 0);
    expect(jx_finder_new(pointers, 1, &(jx_settings){1, JX_UNIQUE_NAMES}, &finder) == JX_NO_UNIQUE_NAMES && finder.inside == NULL, "unique names", 0);
    expect(jx_finder_new(NULL, 0, NULL, &finder) == JX_OK && jx_finder_feed(&finder, NULL, 1) == JX_NULL_POINTER && jx_finder_feed(&finder, NULL, 0) == JX_OK, "null bytes", 0);
    expect(jx_finder_end(&finder, NULL, 1) == JX_NULL_POINTER && finder.inside != NULL && jx_finder_end(&finder, NULL, 0) == JX_OK && finder.inside == NULL, "null answers", 0);
    expect(jx_finder_new(pointers, 2, NULL, &finder) == JX_OK && jx_finder_feed(&finder, (const uint8_t *)"[", 1) == JX_OK, "a text begins", 0);
    /* No byte of the slice is looked at where too many come. */
    expect(jx_finder_feed(&finder, (const uint8_t *)"", SIZE_MAX) == JX_TOO_MANY_BYTES && jx_finder_feed(&finder, (const uint8_t *)"]", 1) == JX_OK, "too many bytes", 0);
    expect(jx_finder_end(&finder, &answer, 1) == JX_OK && answer.outcome == JX_FOUND && answer.span.end == 2 && answer.kind == JX_ARRAY, "one answer of two", 0);
    answer = other;
    expect(jx_finder_new(pointers, COUNT, NULL, &finder) == JX_OK && jx_finder_new(pointers + 1, 1, NULL, &finder) == JX_OK, "another one in its place", 0);
    jx_answer both[2] = {other, other};
    expect(jx_finder_feed(&finder, (const uint8_t *)"{\"a\":7}", 7) == JX_OK && jx_finder_end(&finder, both, 2) == JX_OK, "more room than pointers", 0);
    expect(both[0].span.start == 5 && same_answer(&both[1], &other), "what stands behind is as it was", 0);
}

int main(int count, char **arguments) {
    if (count != 2) return 2;
    for (size_t n = 0; n < COUNT; n++) pointers[n] = (jx_pointer){(const uint8_t *)words[n], strlen(words[n])};
    for (size_t n = 0; n < sizeof few / sizeof few[0]; n++) is_found_alike((const uint8_t *)few[n], strlen(few[n]), n);
    each_of_table(arguments[1]);
    refusals();
    null_pointers_and_settings();
    return counted();
}
