/* Reads the texts of the table, each beginning of them, and each of these in slices of one byte: verdicts FILE. */
#define TEST "verdicts"
#include "testing.h"


/* A copy that ends where its bytes do, so that one byte too many that is read is seen. */
static uint8_t *copied(const uint8_t *bytes, size_t size) {
    uint8_t *copy = malloc(size + (size == 0));
    if (copy == NULL) exit(2);
    memcpy(copy, bytes, size);
    return copy;
}

static void beginnings(const uint8_t *bytes, size_t size, uint32_t depth, const jx_verdict *wanted, size_t line) {
    jx_reader reader;
    memset(&reader, 0xA5, sizeof reader);
    expect(jx_reader_start(&reader, &(jx_settings){depth, 0}) == JX_OK, "a reader starts", line);
    const int is_fault = wanted->kind == JX_STOPPED || wanted->kind == JX_TOO_DEEP;
    for (size_t end = 0;; end++) {
        uint8_t *text = copied(bytes, end);
        jx_verdict whole;
        jx_verdict fed;
        expect(jx_check(text, end, &(jx_settings){depth, 0}, &whole) == JX_OK, "a beginning is checked", line);
        expect(jx_reader_verdict(&reader, &fed) == JX_OK && same(&whole, &fed), "slices of one byte come to the same", line);
        if (is_fault && end > wanted->offset) {
            expect(same(&whole, wanted), "the fault stays", line);
        } else {
            expect(whole.kind == JX_ACCEPTED || whole.kind == JX_TRUNCATED, "no fault before the fault", line);
        }
        free(text);
        if (end == size) break;
        uint8_t *slice = copied(bytes + end, 1);
        expect(jx_reader_feed(&reader, slice, 1) == JX_OK, "a byte is read", line);
        free(slice);
    }
}

static void halves(const uint8_t *bytes, size_t size, uint32_t depth, const jx_verdict *wanted, size_t line) {
    for (size_t cut = 0; cut <= size; cut++) {
        jx_reader reader;
        jx_verdict fed;
        expect(jx_reader_start(&reader, &(jx_settings){depth, 0}) == JX_OK, "a reader starts", line);
        expect(jx_reader_feed(&reader, bytes, cut) == JX_OK, "the first half is read", line);
        expect(jx_reader_feed(&reader, bytes + cut, size - cut) == JX_OK, "the second half is read", line);
        expect(jx_reader_verdict(&reader, &fed) == JX_OK && same(&fed, wanted), "two halves come to the same", line);
    }
}

static void verdict_of(const row *row) {
    jx_verdict told;
    expect(jx_check(row->text, row->size, &(jx_settings){row->depth, 0}, &told) == JX_OK && same(&told, &row->verdict), "the verdict", row->line);
    beginnings(row->text, row->size, row->depth, &row->verdict, row->line);
    halves(row->text, row->size, row->depth, &row->verdict, row->line);
}

/* 65,535 containers of both kinds, and one more. */
static void deep(void) {
    static uint8_t text[65536 * 6];
    size_t size = 0;
    jx_reader reader;
    jx_verdict told;
    for (int n = 0; n < 65536; n++) {
        const char *opening = n % 3 == 0 ? "{\"a\":" : "[";
        memcpy(text + size, opening, strlen(opening));
        if (n == 65535) break;
        size += strlen(opening);
    }
    expect(jx_check(text, size, &(jx_settings){JX_DEPTH_MAX, 0}, &told) == JX_OK && told.kind == JX_TRUNCATED, "the greatest depth", 0);
    expect(jx_check(text, size + 1, &(jx_settings){JX_DEPTH_MAX, 0}, &told) == JX_OK && told.kind == JX_TOO_DEEP && told.offset == size, "one more", 0);
    expect(jx_reader_start(&reader, &(jx_settings){JX_DEPTH_MAX, 0}) == JX_OK, "a deep reader starts", 0);
    expect(jx_reader_feed(&reader, text, size) == JX_OK, "a deep beginning is read", 0);
    expect(jx_reader_feed(&reader, (const uint8_t *)"0", 1) == JX_OK, "its scalar is read", 0);
    for (int n = 65534; n >= 0; n--) {
        const uint8_t closing = n % 3 == 0 ? '}' : ']';
        if (jx_reader_feed(&reader, &closing, 1) != JX_OK) exit(2);
    }
    expect(jx_reader_verdict(&reader, &told) == JX_OK && told.kind == JX_ACCEPTED, "a deep text", 0);
    expect(jx_reader_feed(&reader, (const uint8_t *)"]", 1) == JX_OK, "a bracket too many is read", 0);
    expect(jx_reader_verdict(&reader, &told) == JX_OK && told.kind == JX_STOPPED && told.offset == size + 65536, "a bracket too many", 0);
}

static void refusals(void) {
    jx_reader reader;
    jx_reader before;
    const jx_verdict unset = {77, 99};
    jx_verdict told = unset;
    memset(&reader, 0, sizeof reader);
    before = reader;
    expect(jx_check((const uint8_t *)"1", 1, &(jx_settings){65536, 0}, &told) == JX_DEPTH_TOO_GREAT && same(&told, &unset), "too great a depth", 0);
    expect(jx_check((const uint8_t *)"1", 1, &(jx_settings){UINT32_MAX, 0}, &told) == JX_DEPTH_TOO_GREAT && same(&told, &unset), "the greatest number", 0);
    expect(jx_reader_start(&reader, &(jx_settings){65536, 0}) == JX_DEPTH_TOO_GREAT && memcmp(&reader, &before, sizeof reader) == 0, "it does not start", 0);
    expect(jx_reader_feed(&reader, (const uint8_t *)"1", 1) == JX_NOT_STARTED && memcmp(&reader, &before, sizeof reader) == 0, "it is not fed", 0);
    expect(jx_reader_verdict(&reader, &told) == JX_NOT_STARTED && same(&told, &unset), "it has no verdict", 0);
}

/* A started reader whose words are written over still answers with some status, and writes nothing behind its end. */
static void garbage(void) {
    struct {
        jx_reader reader;
        uint64_t behind;
    } room;
    const char *const text = "}]]}[{\"a\":[1,[2,{}]]}]]]]}}}}";
    uint32_t number = 1;
    jx_reader started;
    jx_reader_start(&started, &(jx_settings){9, 0});
    room.behind = 0x5A5A5A5A5A5A5A5AU;
    for (int round = 0; round < 2000; round++) {
        uint8_t *bytes = (uint8_t *)&room.reader;
        for (size_t at = 0; at < sizeof room.reader; at++) {
            number = number * 1103515245U + 12345U;
            bytes[at] = (uint8_t)(number >> (round % 2 == 0 ? 16 : 30));
        }
        room.reader.words[0] = started.words[0];
        jx_verdict told;
        const uint32_t status = jx_reader_feed(&room.reader, (const uint8_t *)text, strlen(text));
        expect(status == JX_OK || status == JX_TOO_MANY_BYTES, "garbage is fed", 0);
        expect(jx_reader_verdict(&room.reader, &told) == JX_OK && told.kind <= JX_TOO_DEEP, "garbage has a verdict", 0);
        expect(room.behind == 0x5A5A5A5A5A5A5A5AU, "what stands behind", 0);
    }
}

int main(int count, char **words) {
    if (count != 2) return 2;
    each_row(words[1], verdict_of);
    deep();
    refusals();
    garbage();
    return counted();
}
