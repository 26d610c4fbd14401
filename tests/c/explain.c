/* Sentences on refused texts: those of the table in rooms of every size, places, settings, statuses, and each request for memory
 * refused in turn: explain FILE. Linked with --wrap=malloc and --wrap=realloc. */
#define TEST "explain"
#define REFUSES_MEMORY
#include "testing.h"

enum { MOST = 256 };

/* Counts from the text's start, as a reader of it would. */
static jx_place place_of(const uint8_t *text, size_t at) {
    jx_place place = {1, 1};
    for (size_t each = 0; each < at; each++) {
        if (text[each] == '\n') {
            place = (jx_place){place.line + 1, 1};
        } else if ((text[each] & 0xC0) != 0x80) {
            place.column++;
        }
    }
    return place;
}

/* The sentence in a room that is longer or shorter, or as long. */
static void in_room(const uint8_t *text, size_t size, const jx_settings *settings, const char *wanted, size_t room, size_t number) {
    const size_t whole = strlen(wanted), written = room < whole ? room : whole;
    uint8_t *into = malloc(room + (room == 0)), *copy = malloc(size + (size == 0));
    jx_verdict verdict;
    jx_place place = {0, 0};
    size_t count = 99;
    if (into == NULL || copy == NULL || jx_check(text, size, settings, &verdict) != JX_OK) exit(2);
    memset(into, 0xA5, room);
    memcpy(copy, text, size);
    expect(jx_explain(copy, size, settings, &verdict, into, room, &count, &place) == JX_OK, "the status", number);
    expect(count == whole, "the size of the whole sentence", number);
    expect(memcmp(into, wanted, written) == 0, "the sentence", number);
    for (size_t at = written; at < room; at++) {
        if (into[at] != 0xA5) expect(0, "what stands behind the sentence is unchanged", number);
    }
    const jx_place counted_to = place_of(text, verdict.kind == JX_TRUNCATED ? size : verdict.offset);
    expect(place.line == counted_to.line && place.column == counted_to.column, "the place", number);
    free(into);
    free(copy);
}

static void in_rooms(const uint8_t *text, size_t size, const jx_settings *settings, const char *wanted, size_t number) {
    for (size_t room = 0; room <= strlen(wanted) + 2; room++) in_room(text, size, settings, wanted, room, number);
}

/* Has each row of the table taken: a text, a tab and its sentence. */
static void sentences(const char *file) {
    static char row[ROW];
    static uint8_t text[ROW];
    FILE *table = fopen(file, "r");
    size_t number = 0, taken = 0;
    if (table == NULL) exit(2);
    while (fgets(row, sizeof row, table) != NULL) {
        char *const tab = strchr(row, '\t');
        number++;
        row[strcspn(row, "\n")] = 0;
        if (row[0] == '#' || tab == NULL) continue;
        *tab = 0;
        in_rooms(text, spelt(row, text), NULL, tab + 1, number);
        taken++;
    }
    fclose(table);
    expect(taken > 30, "the table has rows", taken);
}

static void by_settings(void) {
    const jx_settings shallow = {2, 0}, ignored = {9, JX_IGNORE_MARK}, unique = {9, JX_UNIQUE_NAMES};
    in_rooms(bytes("[\n[[1]]]"), 8, &shallow, "more than 2 containers open", 1000);
    in_rooms(bytes("\xEF\xBB\xBF[,"), 5, &ignored, "expected a value or ], found a comma", 1001);
    in_rooms(bytes("\xEF\xBB[]"), 4, &ignored, "a byte order mark is begun and not ended", 1002);
    in_rooms(bytes("\xEF\xBB"), 2, &ignored, "the text ends inside a byte order mark", 1003);
    in_rooms(bytes("{\"a\": {\"b\": 1},\n \"\\u0061\": 2}"), 29, &unique, "the name \"a\" was used at line 1, column 2", 1004);
    in_rooms(bytes("[{\"\\t\":1,\"c\":{\"c\":2},\"\\u0009\":3}]"), 33, &unique, "the name \"\\t\" was used at line 1, column 3", 1005);
}

static uint32_t status_of(const jx_settings *settings, const jx_verdict *verdict) {
    uint8_t into[8] = {0};
    size_t count = 99;
    jx_place place = {77, 98};
    const uint32_t status = jx_explain(bytes("[1 2]"), 5, settings, verdict, into, sizeof into, &count, &place);
    if (status != JX_OK) expect(into[0] == 0 && count == 99 && place.line == 77 && place.column == 98, "unchanged", status);
    return status;
}

static void statuses(void) {
    const jx_verdict stopped = {3, JX_STOPPED};
    expect(status_of(NULL, &stopped) == JX_OK, "a refusal", 0);
    expect(status_of(&(jx_settings){65536, 0}, &stopped) == JX_DEPTH_TOO_GREAT, "a depth", 0);
    expect(status_of(&(jx_settings){9, 4}, &stopped) == JX_UNKNOWN_FLAG, "a flag", 0);
    expect(status_of(NULL, &(jx_verdict){0, JX_ACCEPTED}) == JX_NOT_REFUSED, "an accepted text", 0);
    for (uint32_t kind = 4; kind < 10; kind++) {
        if (kind != JX_REPEATED_NAME) expect(status_of(NULL, &(jx_verdict){0, kind}) == JX_NOT_REFUSED, "no verdict on a text", kind);
    }
    expect(status_of(NULL, &(jx_verdict){1, JX_TRUNCATED}) == JX_NOT_REFUSED, "a truncated text has no offset", 0);
    expect(status_of(NULL, &(jx_verdict){5, JX_STOPPED}) == JX_OK, "the text's end", 0);
    for (uint32_t kind = 1; kind < 7; kind++) {
        if (kind != JX_TRUNCATED && kind != 4 && kind != 5) {
            expect(status_of(NULL, &(jx_verdict){6, kind}) == JX_OUT_OF_BOUNDS, "behind the end", kind);
            expect(status_of(NULL, &(jx_verdict){SIZE_MAX, kind}) == JX_OUT_OF_BOUNDS, "far behind it", kind);
            expect(status_of(NULL, &(jx_verdict){0, kind}) == JX_OK, "another verdict", kind);
        }
    }
}

/* Each request is refused in turn. */
static void memory(const char *text, const jx_settings *settings, const char *wanted) {
    jx_verdict verdict;
    long requests = 0;
    if (jx_check(bytes(text), strlen(text), settings, &verdict) != JX_OK) exit(2);
    for (uint32_t status = JX_NO_MEMORY; status != JX_OK; requests++) {
        uint8_t into[MOST] = {0};
        size_t count = 99;
        jx_place place = {77, 98};
        granted = requests;
        status = jx_explain(bytes(text), strlen(text), settings, &verdict, into, sizeof into, &count, &place);
        granted = -1;
        if (status == JX_OK) {
            expect(count == strlen(wanted) && memcmp(into, wanted, count) == 0, "with memory", 0);
        } else {
            expect(status == JX_NO_MEMORY && count == 99 && into[0] == 0 && place.line == 77, "without memory", (size_t)requests);
        }
        if (requests > 1000) exit(2);
    }
    expect(requests > 1, "it takes memory", 0);
}

int main(int count, char **words) {
    if (count != 2) return 2;
    sentences(words[1]);
    by_settings();
    statuses();
    memory("[[[1 2]]]", NULL, "expected a comma or ], found 2");
    memory("{\"a\":1,\"b\":{},\"a\":2}", &(jx_settings){9, JX_UNIQUE_NAMES}, "the name \"a\" was used at line 1, column 2");
    return counted();
}
