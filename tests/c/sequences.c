/* Elements of JSON text sequences: a few by the standard, the texts of the table and each beginning of them behind a mark, all of
 * them in one sequence, and each request for memory refused in turn: sequences FILE. Linked with --wrap=malloc and
 * --wrap=realloc. */
#define TEST "sequences"
#define REFUSES_MEMORY
#include "testing.h"

enum { MARK = 0x1E, MOST = 64 };

static int is_element(const jx_element *element, size_t start, size_t end, uint32_t kind, size_t offset) {
    return element->span.start == start && element->span.end == end && element->verdict.kind == kind && element->verdict.offset == offset;
}

/* The elements of a sequence that ends where its memory does, so that one byte too many that is read is seen. */
static size_t elements(const uint8_t *bytes, size_t size, uint32_t depth, jx_element *found, size_t room, size_t line) {
    size_t count = SIZE_MAX;
    uint8_t *copy = malloc(size + (size == 0));
    if (copy == NULL) exit(2);
    memcpy(copy, bytes, size);
    expect(jx_elements(copy, size, &(jx_settings){depth, 0}, found, room, &count) == JX_OK, "a sequence is read", line);
    free(copy);
    return count;
}

/* What an element of these bytes comes to that stands from an offset on: the verdict on them as a text, unless they end in a
 * number or a literal. */
static jx_verdict wanted(const uint8_t *bytes, size_t size, uint32_t depth, size_t at) {
    jx_verdict verdict;
    if (jx_check(bytes, size, &(jx_settings){depth, 0}, &verdict) != JX_OK) exit(2);
    if (verdict.kind == JX_STOPPED || verdict.kind == JX_TOO_DEEP) verdict.offset += at;
    if (verdict.kind == JX_ACCEPTED && strchr("0123456789el", bytes[size - 1]) != NULL) verdict.kind = JX_MAY_BE_CUT;
    return verdict;
}

/* RFC 7464, sections 2.1, 2.3 and 2.4. */
static void few(void) {
    static const uint8_t text[] = "7\n\x1E{\"a\":1}\n\x1E\x1E" "12\x1E" "true\n\x1E[1,\x1E[]]\n\x1E\"a\"";
    jx_element all[8];
    jx_element before;
    memset(all, 0x5A, sizeof all);
    before = all[7];
    expect(elements(text, sizeof text - 1, 9, all, 8, 0) == 7, "how many", 0);
    expect(is_element(&all[0], 0, 2, JX_UNMARKED, 0), "before the first mark", 0);
    expect(is_element(&all[1], 3, 11, JX_ACCEPTED, 0), "an object", 0);
    expect(is_element(&all[2], 13, 15, JX_MAY_BE_CUT, 0), "a number with nothing behind it", 0);
    expect(is_element(&all[3], 16, 21, JX_ACCEPTED, 0), "a literal with a line feed behind it", 0);
    expect(is_element(&all[4], 22, 25, JX_TRUNCATED, 0), "half an array", 0);
    expect(is_element(&all[5], 26, 30, JX_STOPPED, 28), "a bracket too many", 0);
    expect(is_element(&all[6], 31, 34, JX_ACCEPTED, 0), "a string", 0);
    expect(memcmp(&all[7], &before, sizeof before) == 0, "behind the last", 0);
    memset(all, 0x5A, sizeof all);
    expect(elements(text, sizeof text - 1, 9, all, 2, 0) == 7, "room for two", 0);
    expect(is_element(&all[1], 3, 11, JX_ACCEPTED, 0) && memcmp(&all[2], &before, sizeof before) == 0, "two are put", 0);
    expect(elements(text, sizeof text - 1, 9, all, 0, 0) == 7, "no room", 0);
    expect(elements(text, sizeof text - 1, 0, all, 8, 0) == 7 && is_element(&all[1], 3, 11, JX_TOO_DEEP, 3), "no depth", 0);
    expect(elements(text, 0, 9, all, 8, 0) == 0, "no byte", 0);
    expect(elements((const uint8_t *)"\x1E\x1E", 2, 9, all, 8, 0) == 0, "marks alone", 0);
}

/* Each beginning of a text behind a mark, and between two. */
static void beginnings(const uint8_t *bytes, size_t size, uint32_t depth, size_t line) {
    static uint8_t sequence[4200];
    memcpy(sequence, "\x1E[]\x1E", 4);
    memcpy(sequence + 4, bytes, size);
    for (size_t end = 1; end <= size; end++) {
        jx_element two[2];
        const jx_verdict verdict = wanted(bytes, end, depth, 4);
        const uint8_t next = sequence[4 + end];
        expect(elements(sequence, 4 + end, depth, two, 2, line) == 2, "a beginning is an element", line);
        expect(is_element(&two[0], 1, 3, depth == 0 ? JX_TOO_DEEP : JX_ACCEPTED, depth == 0), "the one before it", line);
        expect(is_element(&two[1], 4, 4 + end, verdict.kind, verdict.offset), "what a beginning comes to", line);
        sequence[4 + end] = MARK;
        expect(elements(sequence, 5 + end, depth, two, 2, line) == 2, "a beginning before a mark", line);
        expect(is_element(&two[1], 4, 4 + end, verdict.kind, verdict.offset), "what it comes to before a mark", line);
        sequence[4 + end] = next;
    }
}

/* All texts behind one another, each judged within the same depth. */
static void in_a_row(const uint8_t *sequence, size_t size, const jx_span *places, size_t count) {
    static jx_element all[MOST];
    for (uint32_t depth = 0; depth < 5; depth++) {
        expect(elements(sequence, size, depth, all, MOST, 0) == count, "as many as there are texts", 0);
        for (size_t n = 0; n < count; n++) {
            const jx_span at = places[n];
            const jx_verdict verdict = wanted(sequence + at.start, at.end - at.start, depth, at.start);
            expect(is_element(&all[n], at.start, at.end, verdict.kind, verdict.offset), "one among others", n);
        }
    }
}

/* The texts of the table so far, each behind a mark, and where they stand. */
static uint8_t sequence[MOST * 128];
static size_t sequence_size;
static jx_span places[MOST];
static size_t place_count;

static void behind_a_mark(const row *row) {
    if (memchr(row->text, MARK, row->size) != NULL) exit(2);
    beginnings(row->text, row->size, row->depth, row->line);
    if (row->size == 0) return;
    if (place_count == MOST || sequence_size + 1 + row->size > sizeof sequence) exit(2);
    sequence[sequence_size++] = MARK;
    memcpy(sequence + sequence_size, row->text, row->size);
    places[place_count++] = (jx_span){sequence_size, sequence_size + row->size};
    sequence_size += row->size;
}

/* Each request refused in turn: there is no memory, and nothing has changed. */
static void refusals(void) {
    static const uint8_t text[] = "\x1E[1]\n\x1E{}\n\x1E[[[";
    jx_element all[3];
    jx_element before[3];
    size_t count = 99;
    long requests = 0;
    for (uint32_t status = JX_NO_MEMORY; status != JX_OK; requests++) {
        memset(all, 0x5A, sizeof all);
        memcpy(before, all, sizeof all);
        granted = requests;
        status = jx_elements(text, sizeof text - 1, &(jx_settings){3, 0}, all, 3, &count);
        granted = -1;
        if (status == JX_OK) break;
        expect(status == JX_NO_MEMORY && memcmp(all, before, sizeof all) == 0 && count == 99, "elements without memory", 0);
    }
    expect(requests > 0 && count == 3, "elements ask for memory", 0);
    memset(all, 0x5A, sizeof all);
    count = 99;
    expect(jx_elements(text, sizeof text - 1, &(jx_settings){65536, 0}, all, 3, &count) == JX_DEPTH_TOO_GREAT, "too great a depth", 0);
    expect(memcmp(all, before, sizeof all) == 0 && count == 99, "nothing has changed", 0);
}

int main(int count, char **words) {
    if (count != 2) return 2;
    few();
    each_row(words[1], behind_a_mark);
    in_a_row(sequence, sequence_size, places, place_count);
    refusals();
    return counted();
}
