/* Rows and pointers, with memory and with each request for it refused in turn. Linked with --wrap=malloc and
 * --wrap=realloc. */
#define TEST "indexed"
#define REFUSES_MEMORY
#include "testing.h"

static int is_row(const jx_row *row, uint32_t kind, size_t start, size_t end, size_t parent, size_t place, size_t name_start, size_t name_end) {
    return row->kind == kind && row->span.start == start && row->span.end == end && row->parent == parent && row->place == place &&
           row->name.start == name_start && row->name.end == name_end;
}

static const char *const text = "{\"a\":[1,{\"b\":2}]}";

static void rows(void) {
    jx_row all[6];
    jx_row before;
    size_t count = 99;
    jx_verdict verdict = {77, 99};
    memset(all, 0x5A, sizeof all);
    before = all[5];
    expect(jx_rows(bytes(text), 17, &(jx_settings){3, 0}, all, 6, &count, &verdict) == JX_OK && verdict.kind == JX_ACCEPTED, "rows: the verdict", 0);
    expect(count == 5, "rows: how many, with the root", 0);
    expect(is_row(&all[0], JX_OBJECT, 0, 17, SIZE_MAX, 0, 0, 0), "rows: the root", 0);
    expect(is_row(&all[1], JX_ARRAY, 5, 16, 0, 0, 1, 4), "rows: the array", 0);
    expect(is_row(&all[2], JX_NUMBER, 6, 7, 1, 0, 0, 0), "rows: its number", 0);
    expect(is_row(&all[3], JX_OBJECT, 8, 15, 1, 1, 0, 0), "rows: its object", 0);
    expect(is_row(&all[4], JX_NUMBER, 13, 14, 3, 0, 9, 12), "rows: the last", 0);
    expect(memcmp(&all[5], &before, sizeof before) == 0, "rows: behind the last", 0);
    memset(all, 0x5A, sizeof all);
    count = 99;
    expect(jx_rows(bytes(text), 17, &(jx_settings){3, 0}, all, 2, &count, &verdict) == JX_OK && count == 5, "rows: room for two", 0);
    expect(is_row(&all[1], JX_ARRAY, 5, 16, 0, 0, 1, 4) && memcmp(&all[2], &before, sizeof before) == 0, "rows: two are put", 0);
    expect(jx_rows(bytes(text), 17, &(jx_settings){3, 0}, all, 0, &count, &verdict) == JX_OK && count == 5, "rows: no room", 0);
    expect(jx_rows(bytes(text), 17, &(jx_settings){2, 0}, all, 6, &count, &verdict) == JX_OK && count == 0 && verdict.kind == JX_TOO_DEEP && verdict.offset == 8, "rows: too deep", 0);
    expect(jx_rows(bytes("nulx"), 4, &(jx_settings){2, 0}, all, 6, &count, &verdict) == JX_OK && count == 0 && verdict.kind == JX_STOPPED && verdict.offset == 3, "rows: stopped", 0);
    count = 99;
    verdict.kind = 98;
    expect(jx_rows(bytes(text), 17, &(jx_settings){65536, 0}, all, 6, &count, &verdict) == JX_DEPTH_TOO_GREAT && count == 99 && verdict.kind == 98, "rows: too great a depth", 0);
}

static jx_answer at(const char *in, const char *pointer) {
    jx_answer answer = {{77, 77}, 77, 77, 77};
    expect(jx_at(bytes(in), strlen(in), bytes(pointer), strlen(pointer), NULL, &answer) == JX_OK, "a pointer is answered", 0);
    return answer;
}

static int leads(const char *in, const char *pointer, uint32_t kind, size_t start, size_t end) {
    const jx_answer answer = at(in, pointer);
    return answer.outcome == JX_FOUND && answer.kind == kind && answer.span.start == start && answer.span.end == end && answer.at == 0;
}

static int fails(const char *in, const char *pointer, uint32_t outcome, size_t place) {
    const jx_answer answer = at(in, pointer);
    return answer.outcome == outcome && answer.at == place && answer.kind == 0 && answer.span.start == 0 && answer.span.end == 0;
}

static void pointers(void) {
    jx_answer answer = {{77, 77}, 77, 77, 77};
    expect(leads("[10,20]", "/1", JX_NUMBER, 4, 6), "an element", 0);
    expect(leads("[10,20]", "", JX_ARRAY, 0, 7), "the root", 0);
    expect(leads(text, "/a/1/b", JX_NUMBER, 13, 14), "a member", 0);
    expect(leads("{\"m~n\":true,\"x/y\":null}", "/m~0n", JX_TRUE, 7, 11), "a tilde", 0);
    expect(leads("{\"m~n\":true,\"x/y\":null}", "/x~1y", JX_NULL, 18, 22), "a slash", 0);
    expect(fails("[10,20]", "/2", JX_PAST_END, 0), "past the end", 0);
    expect(fails("[10,20]", "/-", JX_AFTER_LAST, 0), "after the last", 0);
    expect(fails("[10,20]", "/01", JX_NOT_AN_INDEX, 0), "no index", 0);
    expect(fails("[10,20]", "/1/0", JX_NOT_A_CONTAINER, 1), "no container", 0);
    expect(fails("{\"a\":1}", "/b", JX_NO_SUCH_MEMBER, 0), "no member", 0);
    expect(fails("{\"a\":1,\"a\":2}", "/a", JX_NAME_REPEATED, 0), "two members", 0);
    expect(fails("[10,20]", "x", JX_NO_SLASH, 0), "no slash", 0);
    expect(fails("[10,20]", "/~2", JX_BAD_ESCAPE, 1), "a bad escape", 0);
    expect(fails("[10,20]", "/\xC3", JX_NOT_UTF8, 0), "no UTF-8", 0);
    expect(fails("[10,2x]", "/1", JX_TEXT_STOPPED, 5), "no text", 0);
    expect(fails("[10,2", "/1", JX_TEXT_TRUNCATED, 0), "half a text", 0);
    expect(jx_at(bytes("[[]]"), 4, bytes("/0"), 2, &(jx_settings){1, 0}, &answer) == JX_OK && answer.outcome == JX_TEXT_TOO_DEEP && answer.at == 1, "a deep text", 0);
    answer.outcome = 77;
    expect(jx_at(bytes("1"), 1, bytes(""), 0, &(jx_settings){65536, 0}, &answer) == JX_DEPTH_TOO_GREAT && answer.outcome == 77, "a pointer at too great a depth", 0);
}

/* Each request refused in turn: there is no memory, and nothing has changed. */
static void refusals(void) {
    long requests = 0;
    for (uint32_t status = JX_NO_MEMORY; status != JX_OK; requests++) {
        jx_row all[5];
        jx_row before[5];
        size_t count = 99;
        jx_verdict verdict = {77, 98};
        memset(all, 0x5A, sizeof all);
        memcpy(before, all, sizeof all);
        granted = requests;
        status = jx_rows(bytes(text), 17, &(jx_settings){3, 0}, all, 5, &count, &verdict);
        granted = -1;
        if (status == JX_OK) break;
        expect(status == JX_NO_MEMORY && memcmp(all, before, sizeof all) == 0 && count == 99 && verdict.kind == 98 && verdict.offset == 77, "rows without memory", 0);
    }
    expect(requests > 0, "rows ask for memory", 0);
    requests = 0;
    for (uint32_t status = JX_NO_MEMORY; status != JX_OK; requests++) {
        jx_answer answer = {{77, 77}, 77, 77, 77};
        granted = requests;
        status = jx_at(bytes(text), 17, bytes("/a/1/b"), 6, &(jx_settings){3, 0}, &answer);
        granted = -1;
        expect(status == JX_OK ? answer.outcome == JX_FOUND : status == JX_NO_MEMORY && answer.outcome == 77 && answer.at == 77, "a pointer without memory", 0);
    }
    jx_verdict verdict;
    granted = 0;
    expect(jx_check(bytes(text), 17, &(jx_settings){3, 0}, &verdict) == JX_OK && verdict.kind == JX_ACCEPTED, "a check takes no memory", 0);
    granted = -1;
}

int main(void) {
    rows();
    pointers();
    refusals();
    expect(jx_version() == 300, "the version", 0);
    return counted();
}
