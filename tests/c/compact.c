/* Compact forms: the texts of the table and each beginning of them in rooms of every size, marks, names that are repeated, statuses, and
 * each request for memory refused in turn: compact FILE. Linked with --wrap=malloc and --wrap=realloc. */
#define TEST "compact"
#define REFUSES_MEMORY
#include "testing.h"

enum { MOST = 4200 };

/* The bytes of a text without its blanks outside of strings. */
static size_t compacted(const uint8_t *text, size_t size, uint8_t *form) {
    size_t count = 0;
    int is_inside = 0;
    for (size_t at = 0; at < size; at++) {
        if (!is_inside && strchr(" \t\n\r", text[at]) != NULL && text[at] != 0) continue;
        form[count++] = text[at];
        if (is_inside && text[at] == '\\') {
            form[count++] = text[++at];
        } else if (text[at] == '"') {
            is_inside = !is_inside;
        }
    }
    return count;
}

/* The text in a room that is longer or shorter than its form, or as long. */
static void in_room(const uint8_t *text, size_t size, const jx_settings *settings, size_t room, size_t line) {
    static uint8_t form[MOST];
    jx_verdict wanted, told = {77, 98};
    size_t count = 99;
    uint8_t *into = malloc(room + (room == 0));
    uint8_t *copy = malloc(size + (size == 0));
    if (into == NULL || copy == NULL || jx_check(text, size, settings, &wanted) != JX_OK) exit(2);
    memset(into, 0xA5, room);
    memcpy(copy, text, size);
    const size_t needed = wanted.kind == JX_ACCEPTED ? compacted(text, size, form) : 0;
    const uint32_t status = jx_compact(copy, size, settings, into, room, &count, &told);
    expect(count == needed, "the size of the form", line);
    if (room < needed) {
        expect(status == JX_NO_ROOM && is(&told, 98, 77), "no room", line);
    } else {
        expect(status == JX_OK && is(&told, wanted.kind, wanted.offset), "the verdict", line);
        expect(memcmp(into, form, needed) == 0, "the form", line);
    }
    const size_t written = room < needed ? 0 : needed;
    for (size_t at = written; at < room; at++) {
        if (into[at] != 0xA5) expect(0, "what stands behind the form is unchanged", line);
    }
    free(into);
    free(copy);
}

static void in_rooms(const row *row) {
    const jx_settings settings = {row->depth, 0};
    for (size_t end = 0; end <= row->size; end++) in_room(row->text, end, &settings, end, row->line);
    for (size_t room = 0; room <= row->size + 2; room++) in_room(row->text, row->size, &settings, room, row->line);
}

static int comes_to(const char *text, const jx_settings *settings, const char *wanted) {
    uint8_t form[64];
    size_t count = 99;
    jx_verdict told;
    const uint32_t status = jx_compact(bytes(text), strlen(text), settings, form, strlen(text), &count, &told);
    return status == JX_OK && is(&told, JX_ACCEPTED, 0) && count == strlen(wanted) && memcmp(form, wanted, count) == 0;
}

static void forms(void) {
    expect(comes_to(" [ 1.0 ,\t-0 ,\r\n1E+2 ] ", NULL, "[1.0,-0,1E+2]"), "numbers keep their bytes", 0);
    expect(comes_to("{ \"a b\" : \"\\u0020\\\" , \\\\\" , \" \" : [ ] }", NULL, "{\"a b\":\"\\u0020\\\" , \\\\\",\" \":[]}"), "strings keep theirs", 1);
    expect(comes_to("\n\"\"", NULL, "\"\""), "an empty string", 2);
    expect(comes_to("\xEF\xBB\xBF [ 1 ]", &(jx_settings){3, JX_IGNORE_MARK}, "[1]"), "an ignored mark is left out", 3);
    expect(comes_to(" [ \"\xEF\xBB\xBF\" ]", &(jx_settings){3, JX_IGNORE_MARK}, "[\"\xEF\xBB\xBF\"]"), "a mark in a string stays", 4);
}

static void statuses(void) {
    uint8_t form[16];
    size_t count = 99;
    jx_verdict told = {77, 98};
    expect(jx_compact(bytes("[ ]"), 3, &(jx_settings){65536, 0}, form, 3, &count, &told) == JX_DEPTH_TOO_GREAT && count == 99 && is(&told, 98, 77), "a depth", 0);
    expect(jx_compact(bytes("[ ]"), 3, &(jx_settings){9, 4}, form, 3, &count, &told) == JX_UNKNOWN_FLAG && count == 99 && is(&told, 98, 77), "a flag", 0);
    expect(jx_compact(bytes("[ ]"), 3, &(jx_settings){0, 0}, form, 3, &count, &told) == JX_OK && count == 0 && is(&told, JX_TOO_DEEP, 0), "too deep", 0);
    granted = 0;
    expect(jx_compact(bytes("[ ]"), 3, NULL, form, 2, &count, &told) == JX_OK && count == 2 && memcmp(form, "[]", 2) == 0, "it takes no memory", 0);
    granted = -1;
}

/* Unique names take memory. Each request is refused in turn. */
static void memory(void) {
    const char *const text = "{\"a\": [{\"b\": 1}], \"c\": 2}";
    const jx_settings settings = {9, JX_UNIQUE_NAMES};
    long requests = 0;
    for (uint32_t status = JX_NO_MEMORY; status != JX_OK; requests++) {
        uint8_t form[32] = {0};
        size_t count = 99;
        jx_verdict told = {77, 98};
        granted = requests;
        status = jx_compact(bytes(text), strlen(text), &settings, form, sizeof form, &count, &told);
        granted = -1;
        if (status == JX_OK) {
            expect(count == 21 && memcmp(form, "{\"a\":[{\"b\":1}],\"c\":2}", 21) == 0 && is(&told, JX_ACCEPTED, 0), "with memory", 0);
        } else {
            expect(status == JX_NO_MEMORY && count == 99 && form[0] == 0 && is(&told, 98, 77), "without memory", (size_t)requests);
        }
        if (requests > 1000) exit(2);
    }
    expect(requests > 1, "names take memory", 0);
    uint8_t form[32];
    size_t count = 99;
    jx_verdict told;
    expect(jx_compact(bytes("{\"a\":1,\"a\":2}"), 13, &settings, form, 32, &count, &told) == JX_OK && is(&told, JX_REPEATED_NAME, 7) && count == 0, "a repeated name", 0);
}

int main(int count, char **words) {
    if (count != 2) return 2;
    each_row(words[1], in_rooms);
    forms();
    statuses();
    memory();
    return counted();
}
