/* Documents: what each status says, edits beside jx_check on the same bytes, and each request for memory refused in turn:
 * documents FILE. Linked with --wrap=malloc and --wrap=realloc. */
#define TEST "documents"
#define REFUSES_MEMORY
#include "testing.h"

enum { ROOM = 1 << 18 };

/* The bytes that a document should have. */
typedef struct kept {
    uint8_t bytes[ROOM];
    size_t size;
    jx_settings settings;
} kept;

static void edit_kept(kept *k, size_t start, size_t end, const uint8_t *replacement, size_t size) {
    if (k->size - (end - start) + size > ROOM) exit(2);
    memmove(k->bytes + start + size, k->bytes + end, k->size - end);
    memcpy(k->bytes + start, replacement, size);
    k->size = k->size - (end - start) + size;
}

/* Whether the document has these bytes, and the verdict that a check of them tells. */
static int agrees(jx_document *document, const kept *k) {
    static uint8_t copy[ROOM];
    jx_verdict told = {99, 99};
    jx_verdict wanted;
    size_t size = 99;
    if (jx_document_size(document, &size) != JX_OK || size != k->size) return 0;
    if (jx_document_copy(document, 0, copy, size) != JX_OK || memcmp(copy, k->bytes, size) != 0) return 0;
    if (jx_check(k->bytes, k->size, &k->settings, &wanted) != JX_OK) exit(2);
    return jx_document_verdict(document, &told) == JX_OK && same(&told, &wanted);
}

static void statuses(void) {
    const jx_settings usual = {JX_DEPTH_DEFAULT, 0};
    jx_document none = {0};
    jx_document document = {0};
    jx_verdict verdict = {99, 99};
    uint8_t copy[4] = {9, 9, 9, 9};
    size_t size = 99;
    expect(jx_document_verdict(&none, &verdict) == JX_NO_DOCUMENT && verdict.kind == 99, "no document has no verdict", 0);
    expect(jx_document_edit(&none, 0, 0, bytes("1"), 1) == JX_NO_DOCUMENT && none.inside == NULL, "no document is edited", 0);
    expect(jx_document_size(&none, &size) == JX_NO_DOCUMENT && size == 99, "no document has no size", 0);
    expect(jx_document_copy(&none, 0, copy, 0) == JX_NO_DOCUMENT, "no document has no bytes", 0);
    jx_document_free(&none);
    expect(none.inside == NULL, "no document is freed", 0);
    const jx_settings wrong[] = {{JX_DEPTH_MAX + 1, 0}, {0, 4}, {0, JX_UNIQUE_NAMES}, {0, JX_UNIQUE_NAMES + JX_IGNORE_MARK}};
    const uint32_t told[] = {JX_DEPTH_TOO_GREAT, JX_UNKNOWN_FLAG, JX_NO_UNIQUE_NAMES, JX_NO_UNIQUE_NAMES};
    for (size_t at = 0; at < 4; at++) {
        expect(jx_document_new(bytes("1"), 1, &wrong[at], &document) == told[at] && document.inside == NULL, "wrong settings", at);
    }
    expect(jx_document_new(bytes("[1]"), 3, &usual, &document) == JX_OK && document.inside != NULL, "a document is made", 0);
    const size_t ranges[][2] = {{2, 1}, {0, 4}, {4, 4}, {3, 2}, {SIZE_MAX, SIZE_MAX}, {0, SIZE_MAX}, {SIZE_MAX, 0}};
    for (size_t at = 0; at < 7; at++) {
        expect(jx_document_edit(&document, ranges[at][0], ranges[at][1], bytes("7"), 1) == JX_OUT_OF_BOUNDS, "out of bounds", at);
    }
    expect(jx_document_copy(&document, 2, copy, 2) == JX_OUT_OF_BOUNDS && copy[0] == 9, "a copy from behind the end", 0);
    expect(jx_document_copy(&document, SIZE_MAX, copy, 2) == JX_OUT_OF_BOUNDS && copy[0] == 9, "a copy from far behind it", 0);
    expect(jx_document_copy(&document, 3, copy, 0) == JX_OK && copy[0] == 9, "a copy of nothing", 0);
    expect(jx_document_copy(&document, 1, copy, 2) == JX_OK && copy[0] == '1' && copy[1] == ']' && copy[2] == 9, "a copy", 0);
    expect(jx_document_new(bytes("nulx"), 4, &wrong[0], &document) == JX_DEPTH_TOO_GREAT, "a document stays where none is made", 0);
    expect(jx_document_size(&document, &size) == JX_OK && size == 3, "it has its bytes", 0);
    expect(jx_document_new(bytes("nulx"), 4, &usual, &document) == JX_OK, "another one takes its place", 0);
    expect(jx_document_verdict(&document, &verdict) == JX_OK && verdict.kind == JX_STOPPED && verdict.offset == 3, "it has its verdict", 0);
    jx_document_free(&document);
    expect(document.inside == NULL, "a struct holds none once its document is freed", 0);
    jx_document_free(&document);
    expect(jx_document_size(&document, &size) == JX_NO_DOCUMENT, "that is told", 0);
}

/* A null document is told before any other null pointer, and neither changes anything. Null bytes are none. */
static void null_pointers(void) {
    const jx_settings usual = {JX_DEPTH_DEFAULT, 0};
    jx_document document = {0};
    uint8_t copy[1] = {9};
    jx_verdict verdict = {99, 99};
    size_t size = 99;
    jx_document_free(NULL);
    expect(jx_document_new(bytes("\xEF\xBB\xBF" "1"), 4, NULL, &document) == JX_OK && document.inside != NULL, "null settings", 0);
    expect(jx_document_verdict(&document, &verdict) == JX_OK && verdict.kind == JX_STOPPED && verdict.offset == 0, "they refuse a mark", 0);
    jx_document_free(&document);
    verdict = (jx_verdict){99, 99};
    expect(jx_document_new(NULL, 1, &usual, &document) == JX_NULL_POINTER && document.inside == NULL, "a null text of a byte", 0);
    expect(jx_document_new(NULL, 0, &usual, &document) == JX_OK && document.inside != NULL, "a null text of no byte", 0);
    const uint32_t told[] = {
        jx_document_new(NULL, 1, NULL, NULL),         jx_document_new(bytes("1"), 1, &usual, NULL),
        jx_document_edit(NULL, 0, 0, bytes("1"), 1),  jx_document_edit(NULL, 0, 0, NULL, 1),
        jx_document_verdict(NULL, &verdict),          jx_document_verdict(NULL, NULL),
        jx_document_size(NULL, &size),                jx_document_size(NULL, NULL),
        jx_document_copy(NULL, 0, copy, 1),           jx_document_copy(NULL, 0, NULL, 1),
    };
    for (size_t at = 0; at < sizeof told / sizeof told[0]; at++) {
        expect(told[at] == JX_NO_DOCUMENT, "a null document", at);
    }
    expect(jx_document_edit(&document, 0, 0, bytes("12"), 2) == JX_OK, "an edit of no text", 0);
    expect(jx_document_edit(&document, 0, 1, NULL, 1) == JX_NULL_POINTER, "a null replacement of a byte", 0);
    expect(jx_document_verdict(&document, NULL) == JX_NULL_POINTER, "a null verdict", 0);
    expect(jx_document_size(&document, NULL) == JX_NULL_POINTER, "a null size", 0);
    expect(jx_document_copy(&document, 0, NULL, 1) == JX_NULL_POINTER, "a null copy of a byte", 0);
    expect(jx_document_copy(&document, 2, NULL, 0) == JX_OK, "a null copy of no byte", 0);
    expect(jx_document_size(&document, &size) == JX_OK && size == 2, "null pointers change nothing", 0);
    expect(jx_document_edit(&document, 0, 1, NULL, 0) == JX_OK, "a null replacement of no byte", 0);
    expect(jx_document_copy(&document, 0, copy, 1) == JX_OK && copy[0] == '2', "it takes out", 0);
    expect(jx_document_verdict(&document, &verdict) == JX_OK && verdict.kind == JX_ACCEPTED, "what is left is a text", 0);
    jx_document_free(&document);
}

/* A text of many chunks, of records with names, numbers, escapes and characters, each in so many arrays. Where these are many,
 * documents keep less of each chunk. */
static void fill(kept *k, size_t size, size_t arrays) {
    k->size = 0;
    k->bytes[k->size++] = '[';
    while (k->size + 64 + 2 * arrays < size) {
        memset(k->bytes + k->size, '[', arrays);
        k->size += arrays;
        k->size += (size_t)sprintf((char *)k->bytes + k->size, "{\"n%zu\":[%zu.5e3,\"\\u00e9\xC3\xA9\",null]}", k->size, k->size);
        memset(k->bytes + k->size, ']', arrays);
        k->size += arrays;
        k->bytes[k->size++] = ',';
    }
    k->bytes[k->size++] = '0';
    k->bytes[k->size++] = ']';
}

typedef struct edit {
    size_t start;
    size_t end;
    const char *replacement;
} edit;

/* One edit with each of its requests for memory refused in turn, until it meets no refusal; then its verdict likewise. A refused
 * call leaves all as it was. */
static void refused(jx_document *document, kept *k, const edit *e, size_t line) {
    static long most;
    const uint8_t *put = bytes(e->replacement);
    const size_t size = strlen(e->replacement);
    jx_verdict verdict = {99, 99};
    for (long nth = 0;; nth++) {
        granted = nth;
        const uint32_t status = jx_document_edit(document, e->start, e->end, put, size);
        granted = -1;
        if (status == JX_OK) break;
        expect(status == JX_NO_MEMORY && agrees(document, k), "a refused edit leaves all as it was", line);
        if (nth > most) most = nth;
        if (nth == 100000) exit(2);
    }
    edit_kept(k, e->start, e->end, put, size);
    for (long nth = 0;; nth++) {
        granted = nth;
        const uint32_t status = jx_document_verdict(document, &verdict);
        granted = -1;
        if (status == JX_OK) break;
        expect(status == JX_NO_MEMORY && verdict.kind == 99, "a refused verdict is told, and none is written", line);
        if (nth == 100000) exit(2);
    }
    expect(agrees(document, k), "what was refused is done", line);
    expect(most > 0, "something was refused", line);
}

static void each_request_refused(size_t arrays) {
    static kept k;
    static char paste[20000];
    k.settings = (jx_settings){JX_DEPTH_DEFAULT, JX_IGNORE_MARK};
    fill(&k, 50000, arrays);
    memset(paste, ' ', sizeof paste - 1);
    const edit edits[] = {
        {30000, 30000, "7"}, {30000, 30001, ""}, {100, 45000, "{"}, {0, 0, "\xEF\xBB\xBF"}, {1, 2, ""}, {0, 2, ""},
        {16384, 16384, "\""}, {5, 5, paste},     {20000, 20001, ","}, {0, 40000, "1"},
    };
    jx_document document = {0};
    long nth = 0;
    for (;; nth++) {
        granted = nth;
        const uint32_t status = jx_document_new(k.bytes, k.size, &k.settings, &document);
        granted = -1;
        if (status == JX_OK) break;
        expect(status == JX_NO_MEMORY && document.inside == NULL, "a document that is refused is none", (size_t)nth);
    }
    expect(nth > 3 && agrees(&document, &k), "the next try makes it", 0);
    uint8_t *copy = __real_malloc(k.size);
    granted = 0;
    expect(jx_document_copy(&document, 0, copy, k.size) == JX_NO_MEMORY && agrees(&document, &k), "a refused copy", 0);
    granted = -1;
    free(copy);
    for (size_t at = 0; at < sizeof edits / sizeof edits[0]; at++) {
        edit e = edits[at];
        if (e.end > k.size) e.end = k.size;
        if (e.start > e.end) e.start = e.end;
        refused(&document, &k, &e, at);
    }
    jx_document_free(&document);
}

/* The same numbers in each run. */
static uint64_t state = 0x9E3779B97F4A7C15;

static size_t below(size_t limit) {
    state ^= state << 13;
    state ^= state >> 7;
    state ^= state << 17;
    return limit == 0 ? 0 : (size_t)(state % limit);
}

/* Edits near chunks' ends and anywhere, each taken back by another one. */
static void edits_and_back(size_t arrays) {
    static const char *const parts[] = {"", "1", "[", "]", "{\"a\":", "}", "\"", ",", "\\", "\xC3", "\xA9", " ", "true", "\xEF\xBB\xBF"};
    static kept k;
    static uint8_t old[ROOM];
    k.settings = (jx_settings){JX_DEPTH_DEFAULT, JX_IGNORE_MARK};
    fill(&k, 60000, arrays);
    jx_document document = {0};
    if (jx_document_new(k.bytes, k.size, &k.settings, &document) != JX_OK) exit(2);
    for (size_t round = 0; round < 600; round++) {
        const char *part = parts[below(sizeof parts / sizeof parts[0])];
        const size_t put = strlen(part);
        size_t start = round % 3 == 0 ? 16384 * below(4) + below(3) : below(k.size + 1);
        if (start > k.size) start = k.size;
        const size_t rest = k.size - start;
        const size_t count = round % 5 == 0 ? below(rest + 1) : below(rest < 4 ? rest + 1 : 4);
        memcpy(old, k.bytes + start, count);
        expect(jx_document_edit(&document, start, start + count, bytes(part), put) == JX_OK, "an edit", round);
        edit_kept(&k, start, start + count, bytes(part), put);
        expect(agrees(&document, &k), "bytes and verdict behind an edit", round);
        expect(jx_document_edit(&document, start, start + put, old, count) == JX_OK, "an edit back", round);
        edit_kept(&k, start, start + put, old, count);
        expect(round % 7 != 0 || agrees(&document, &k), "bytes and verdict behind an edit back", round);
    }
    expect(agrees(&document, &k), "all is as it was", 0);
    jx_document_free(&document);
}

int main(void) {
    statuses();
    null_pointers();
    each_request_refused(0);
    each_request_refused(200);
    edits_and_back(0);
    edits_and_back(200);
    return counted();
}
