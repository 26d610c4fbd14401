/* Calls with settings: the texts of the table and each beginning of them, with a byte order mark in front and without, at once and in
 * slices of one byte; names that are repeated; and each request for memory refused in turn: settings FILE. Linked with
 * --wrap=malloc and --wrap=realloc. */
#define TEST "settings"
#define REFUSES_MEMORY
#include "testing.h"

enum { MOST = 4200 };

static const uint8_t mark[] = {0xEF, 0xBB, 0xBF};

/* What the bytes come to where a mark is ignored, by what jx_check tells of the bytes behind it. */
static jx_verdict wanted(const uint8_t *text, size_t size, uint32_t depth) {
    size_t count = 0;
    while (count < 3 && count < size && text[count] == mark[count]) count++;
    if (count == 1 || count == 2) {
        if (count == size) return (jx_verdict){0, JX_TRUNCATED};
        return (jx_verdict){count, JX_STOPPED};
    }
    jx_verdict verdict;
    if (jx_check(text + count, size - count, &(jx_settings){depth, 0}, &verdict) != JX_OK) exit(2);
    if (verdict.kind == JX_STOPPED || verdict.kind == JX_TOO_DEEP) verdict.offset += count;
    return verdict;
}

/* A copy that ends where its bytes do, so that one byte too many that is read is seen. */
static uint8_t *copied(const uint8_t *text, size_t size) {
    uint8_t *copy = malloc(size + (size == 0));
    if (copy == NULL) exit(2);
    memcpy(copy, text, size);
    return copy;
}

/* The rows and the root by settings, beside those of the text behind the mark. */
static void indexed(const uint8_t *text, size_t size, size_t front, uint32_t depth, size_t line) {
    static jx_row all[64];
    static jx_row behind[64];
    const jx_settings settings = {depth, JX_IGNORE_MARK};
    const jx_verdict whole = wanted(text, size, depth);
    jx_verdict verdict = {99, 99};
    size_t count = 0;
    size_t others = 0;
    jx_verdict other;
    jx_answer root;
    expect(jx_rows(text, size, &settings, all, 64, &count, &verdict) == JX_OK && same(&verdict, &whole), "the verdict on rows", line);
    expect(jx_at(text, size, bytes(""), 0, &settings, &root) == JX_OK, "the root is asked for", line);
    if (whole.kind != JX_ACCEPTED) {
        expect(count == 0 && root.outcome != JX_FOUND && (size_t)root.at == whole.offset, "no text has no rows", line);
        return;
    }
    if (jx_rows(text + front, size - front, &(jx_settings){depth, 0}, behind, 64, &others, &other) != JX_OK) exit(2);
    expect(count == others && count > 0, "as many rows as behind the mark", line);
    for (size_t n = 0; n < count && n < 64; n++) {
        expect(all[n].kind == behind[n].kind && all[n].parent == behind[n].parent && all[n].place == behind[n].place, "a row", line);
        expect(all[n].span.start == behind[n].span.start + front && all[n].span.end == behind[n].span.end + front, "its span counts the mark", line);
        const size_t more = behind[n].name.end == 0 ? 0 : front;
        expect(all[n].name.start == behind[n].name.start + more && all[n].name.end == behind[n].name.end + more, "its name's too", line);
    }
    expect(root.outcome == JX_FOUND && root.span.start == all[0].span.start && root.span.end == all[0].span.end, "the root", line);
}

/* Each beginning, at once and in slices of one byte. */
static void beginnings(const uint8_t *text, size_t size, uint32_t depth, size_t line) {
    const jx_settings ignoring = {depth, JX_IGNORE_MARK};
    const jx_settings plain = {depth, 0};
    const jx_settings unique = {depth, JX_IGNORE_MARK | JX_UNIQUE_NAMES};
    jx_reader reader;
    jx_reader other;
    memset(&reader, 0xA5, sizeof reader);
    memset(&other, 0xA5, sizeof other);
    expect(jx_reader_start(&reader, &ignoring) == JX_OK, "a reader starts", line);
    expect(jx_reader_start(&other, &plain) == JX_OK, "a plain reader starts", line);
    for (size_t end = 0;; end++) {
        uint8_t *copy = copied(text, end);
        const jx_verdict verdict = wanted(copy, end, depth);
        jx_verdict told;
        jx_verdict without;
        expect(jx_check(copy, end, &ignoring, &told) == JX_OK && same(&told, &verdict), "a beginning", line);
        expect(jx_reader_verdict(&reader, &told) == JX_OK && same(&told, &verdict), "slices of one byte come to the same", line);
        expect(jx_check(copy, end, &unique, &told) == JX_OK && same(&told, &verdict), "no name is repeated", line);
        expect(jx_check(copy, end, &plain, &without) == JX_OK, "it is checked without flags", line);
        expect(jx_reader_verdict(&other, &told) == JX_OK && same(&told, &without), "without flags slices come to the same", line);
        free(copy);
        if (end == size) break;
        uint8_t *slice = copied(text + end, 1);
        expect(jx_reader_feed(&reader, slice, 1) == JX_OK && jx_reader_feed(&other, slice, 1) == JX_OK, "a byte is read", line);
        expect(jx_reader_feed(&reader, slice, 0) == JX_OK, "no byte is read", line);
        free(slice);
    }
}

static void halves(const uint8_t *text, size_t size, uint32_t depth, size_t line) {
    const jx_settings settings = {depth, JX_IGNORE_MARK};
    const jx_verdict verdict = wanted(text, size, depth);
    for (size_t cut = 0; cut <= size; cut++) {
        jx_reader reader;
        jx_verdict fed;
        expect(jx_reader_start(&reader, &settings) == JX_OK, "a reader starts", line);
        expect(jx_reader_feed(&reader, text, cut) == JX_OK, "the first half is read", line);
        expect(jx_reader_feed(&reader, text + cut, size - cut) == JX_OK, "the second half is read", line);
        expect(jx_reader_verdict(&reader, &fed) == JX_OK && same(&fed, &verdict), "two halves come to the same", line);
    }
}

static void all_of(const uint8_t *text, size_t size, size_t front, uint32_t depth, size_t line) {
    beginnings(text, size, depth, line);
    halves(text, size, depth, line);
    indexed(text, size, front, depth, line);
}

static void with_a_mark_and_without(const row *row) {
    static uint8_t text[ROW + 3];
    const size_t front = row->size >= 3 && memcmp(row->text, mark, 3) == 0 ? 3 : 0;
    memcpy(text, mark, 3);
    memcpy(text + 3, row->text, row->size);
    all_of(text + 3, row->size, front, row->depth, row->line);
    all_of(text, row->size + 3, 3, row->depth, row->line);
}

/* Marks and what is nearly one (RFC 8259, section 8.1). */
static void marks(void) {
    static const struct {
        const char *text;
        size_t size;
        uint32_t kind;
        size_t offset;
    } all[] = {
        {"\xEF\xBB\xBF", 3, JX_TRUNCATED, 0},       {"\xEF\xBB\xBF" "1", 4, JX_ACCEPTED, 0},  {"\xEF\xBB\xBF" "}", 4, JX_STOPPED, 3},
        {"\xEF", 1, JX_TRUNCATED, 0},               {"\xEF\xBB", 2, JX_TRUNCATED, 0},         {"\xEF" "1", 2, JX_STOPPED, 1},
        {"\xEF\xBB" "1", 3, JX_STOPPED, 2},         {"\xEF\xEF", 2, JX_STOPPED, 1},           {" \xEF\xBB\xBF" "1", 5, JX_STOPPED, 1},
        {"\xEF\xBB\xBF\xEF\xBB\xBF" "1", 7, JX_STOPPED, 3}, {"\xBB\xBF" "1", 3, JX_STOPPED, 0}, {"\xEF\xBB\xBF 1 ", 6, JX_ACCEPTED, 0},
    };
    for (size_t n = 0; n < sizeof all / sizeof all[0]; n++) {
        const jx_settings settings = {512, JX_IGNORE_MARK};
        jx_verdict told;
        expect(jx_check(bytes(all[n].text), all[n].size, &settings, &told) == JX_OK && is(&told, all[n].kind, all[n].offset), "a mark", n);
        beginnings(bytes(all[n].text), all[n].size, 512, n);
        halves(bytes(all[n].text), all[n].size, 512, n);
    }
}

/* Names by their values (RFC 8259, section 4). */
static void names(void) {
    static const struct {
        const char *text;
        uint32_t kind;
        size_t offset;
    } all[] = {
        {"{\"a\":1,\"a\":2}", JX_REPEATED_NAME, 7},
        {"{\"a\":1,\"\\u0061\":2}", JX_REPEATED_NAME, 7},
        {"{\"a\":1,\"b\":2,\"b\":3,\"a\":4}", JX_REPEATED_NAME, 13},
        {"[{\"a\":1},{\"a\":1}]", JX_ACCEPTED, 0},
        {"{\"a\":{\"a\":1}}", JX_ACCEPTED, 0},
        {"{\"a\":[{\"b\":1,\"c\":2,\"b\":3}],\"a\":0}", JX_REPEATED_NAME, 19},
        {"{\"a\":1,\"A\":2}", JX_ACCEPTED, 0},
        {"{\"a\":1,\"a\":2", JX_TRUNCATED, 0},
        {"{\"a\":1,\"a\":x}", JX_STOPPED, 11},
        {"{\"a\":[[[]]],\"a\":2}", JX_TOO_DEEP, 7},
    };
    static const uint32_t told_as[] = {JX_FOUND, JX_TEXT_STOPPED, JX_TEXT_TRUNCATED, JX_TEXT_TOO_DEEP, 99, 99, JX_TEXT_REPEATED_NAME};
    const jx_settings unique = {3, JX_UNIQUE_NAMES};
    const jx_settings any = {3, 0};
    for (size_t n = 0; n < sizeof all / sizeof all[0]; n++) {
        const size_t size = strlen(all[n].text);
        const int is_repeated = all[n].kind == JX_REPEATED_NAME;
        jx_verdict told;
        jx_row rows[16];
        size_t count = 99;
        jx_answer root;
        expect(jx_check(bytes(all[n].text), size, &unique, &told) == JX_OK && is(&told, all[n].kind, all[n].offset), "names", n);
        expect(jx_check(bytes(all[n].text), size, &any, &told) == JX_OK && (is_repeated ? is(&told, JX_ACCEPTED, 0) : is(&told, all[n].kind, all[n].offset)), "any names", n);
        expect(jx_rows(bytes(all[n].text), size, &unique, rows, 16, &count, &told) == JX_OK && is(&told, all[n].kind, all[n].offset), "rows by names", n);
        expect((count == 0) == (all[n].kind != JX_ACCEPTED), "rows only where names are unique", n);
        expect(jx_at(bytes(all[n].text), size, bytes(""), 0, &unique, &root) == JX_OK && root.outcome == told_as[all[n].kind] && root.at == all[n].offset, "a pointer by names", n);
    }
}

static int is_element(const jx_element *element, size_t start, size_t end, uint32_t kind, size_t offset) {
    return element->span.start == start && element->span.end == end && is(&element->verdict, kind, offset);
}

/* RFC 7464, section 2.1, with a mark alone before the first record separator. */
static void sequences(void) {
    const char *const text = "\xEF\xBB\xBF\x1E{\"a\":1,\"a\":2}\n\x1E\xEF\xBB\xBF[]\n\x1E[\x1E{\"b\":1}\x1E" "1";
    const size_t size = strlen(text);
    const jx_settings plain = {9, 0};
    const jx_settings both = {9, JX_IGNORE_MARK | JX_UNIQUE_NAMES};
    const jx_settings ignoring = {9, JX_IGNORE_MARK};
    jx_element all[8];
    size_t count = 0;
    expect(jx_elements(bytes(text), size, &plain, all, 8, &count) == JX_OK && count == 6, "with the mark", 0);
    expect(is_element(&all[0], 0, 3, JX_UNMARKED, 0) && is_element(&all[1], 4, 18, JX_ACCEPTED, 0), "a mark is an element", 0);
    expect(jx_elements(bytes(text), size, &ignoring, all, 8, &count) == JX_OK && count == 5, "without the mark", 0);
    expect(is_element(&all[0], 4, 18, JX_ACCEPTED, 0), "any names", 0);
    expect(jx_elements(bytes(text), size, &both, all, 8, &count) == JX_OK && count == 5, "with both flags", 0);
    expect(is_element(&all[0], 4, 18, JX_REPEATED_NAME, 11), "a repeated name", 0);
    expect(is_element(&all[1], 19, 25, JX_STOPPED, 19), "a mark in an element", 0);
    expect(is_element(&all[2], 26, 27, JX_TRUNCATED, 0), "half an array", 0);
    expect(is_element(&all[3], 28, 35, JX_ACCEPTED, 0), "an object", 0);
    expect(is_element(&all[4], 36, 37, JX_MAY_BE_CUT, 0), "a number", 0);
    expect(jx_elements(bytes("\xEF\xBB\xBF"), 3, &both, all, 8, &count) == JX_OK && count == 0, "a mark and no more", 0);
    expect(jx_elements(bytes("\xEF\xBB\x1E" "1 "), 5, &both, all, 8, &count) == JX_OK && count == 2 && is_element(&all[0], 0, 2, JX_UNMARKED, 0), "half a mark", 0);
    expect(jx_elements(bytes("\xEF\xBB\xBF \x1E" "1 "), 7, &both, all, 8, &count) == JX_OK && count == 2 && is_element(&all[0], 0, 4, JX_UNMARKED, 0), "a mark not alone", 0);
}

/* Settings that there are not: named statuses, and nothing has changed. */
static void refusals(void) {
    static const struct {
        jx_settings settings;
        uint32_t status;
        uint32_t of_reader;
    } all[] = {
        {{65536, 0}, JX_DEPTH_TOO_GREAT, JX_DEPTH_TOO_GREAT}, {{UINT32_MAX, UINT32_MAX}, JX_DEPTH_TOO_GREAT, JX_DEPTH_TOO_GREAT},
        {{1, 4}, JX_UNKNOWN_FLAG, JX_UNKNOWN_FLAG},           {{1, 0x80000001U}, JX_UNKNOWN_FLAG, JX_UNKNOWN_FLAG},
        {{1, JX_UNIQUE_NAMES}, JX_OK, JX_NO_UNIQUE_NAMES},    {{1, 3}, JX_OK, JX_NO_UNIQUE_NAMES},
    };
    for (size_t n = 0; n < sizeof all / sizeof all[0]; n++) {
        const uint32_t status = all[n].status;
        jx_reader reader;
        jx_reader before;
        jx_verdict verdict = {77, 98};
        jx_answer answer = {{77, 77}, 77, 77, 77};
        jx_row row = {{7, 7}, {7, 7}, 7, 7, 77};
        jx_element element = {{7, 7}, {7, 77}};
        size_t count = 99;
        memset(&reader, 0x5A, sizeof reader);
        before = reader;
        expect(jx_reader_start(&reader, &all[n].settings) == all[n].of_reader && memcmp(&reader, &before, sizeof reader) == 0, "a reader does not start", n);
        expect(jx_check(bytes("1"), 1, &all[n].settings, &verdict) == status && (status == JX_OK || is(&verdict, 98, 77)), "a check", n);
        verdict = (jx_verdict){77, 98};
        expect(jx_at(bytes("1"), 1, bytes(""), 0, &all[n].settings, &answer) == status && (status == JX_OK || answer.outcome == 77), "a pointer", n);
        expect(jx_rows(bytes("1"), 1, &all[n].settings, &row, 1, &count, &verdict) == status && (status == JX_OK || (row.kind == 77 && count == 99 && is(&verdict, 98, 77))), "rows", n);
        count = 99;
        expect(jx_elements(bytes("\x1E" "1"), 2, &all[n].settings, &element, 1, &count) == status && (status == JX_OK || (element.verdict.kind == 77 && count == 99)), "elements", n);
    }
}

/* One of the calls that may take memory, on a text that has a mark and a repeated name; gives whether nothing has changed. */
static int is_unchanged(int call, uint32_t *status) {
    const char *const text = call == 3 ? "\xEF\xBB\xBF\x1E{\"a\":1,\"a\":[1,2]}" : "\xEF\xBB\xBF{\"a\":1,\"a\":[1,2]}";
    const jx_settings settings = {9, JX_IGNORE_MARK | JX_UNIQUE_NAMES};
    const size_t size = strlen(text);
    jx_verdict verdict = {77, 98};
    jx_answer answer = {{77, 77}, 77, 77, 77};
    jx_row row = {{7, 7}, {7, 7}, 7, 7, 77};
    jx_element element = {{7, 7}, {7, 77}};
    size_t count = 99;
    switch (call) {
    case 0:
        *status = jx_check(bytes(text), size, &settings, &verdict);
        return is(&verdict, 98, 77);
    case 1:
        *status = jx_rows(bytes(text), size, &settings, &row, 1, &count, &verdict);
        return is(&verdict, 98, 77) && count == 99 && row.kind == 77;
    case 2:
        *status = jx_at(bytes(text), size, bytes("/a/1"), 4, &settings, &answer);
        return answer.outcome == 77;
    default:
        *status = jx_elements(bytes(text), size, &settings, &element, 1, &count);
        return count == 99 && element.verdict.kind == 77;
    }
}

/* Each request for memory refused in turn; and what takes none. */
static void memory(void) {
    for (int call = 0; call < 4; call++) {
        long requests = 0;
        for (uint32_t status = JX_NO_MEMORY; status != JX_OK; requests++) {
            granted = requests;
            const int unchanged = is_unchanged(call, &status);
            granted = -1;
            expect(status == JX_OK ? !unchanged : status == JX_NO_MEMORY && unchanged, "without memory", (size_t)call);
            if (requests > 1000) exit(2);
        }
        expect(requests > 1, "names take memory", (size_t)call);
    }
    const jx_settings settings = {9, JX_IGNORE_MARK};
    jx_reader reader;
    jx_verdict verdict;
    granted = 0;
    expect(jx_check(bytes("\xEF\xBB\xBF[]"), 5, &settings, &verdict) == JX_OK && is(&verdict, JX_ACCEPTED, 0), "a mark takes no memory", 0);
    expect(jx_reader_start(&reader, &settings) == JX_OK && jx_reader_feed(&reader, bytes("\xEF\xBB\xBF[]"), 5) == JX_OK, "nor in a reader", 0);
    expect(jx_reader_verdict(&reader, &verdict) == JX_OK && is(&verdict, JX_ACCEPTED, 0), "which has its verdict", 0);
    granted = -1;
}

/* So many arrays in one another. */
static void nested(uint8_t *into, size_t depth) {
    memset(into, '[', depth);
    memset(into + depth, ']', depth);
}

/* Null settings are the default depth and no flag. */
static void null_settings(void) {
    static uint8_t text[2 * (JX_DEPTH_DEFAULT + 1)];
    static jx_row rows[JX_DEPTH_DEFAULT + 1];
    const char *const names = "{\"a\":1,\"a\":2}";
    const jx_pointer root = {bytes(""), 0};
    for (size_t more = 0; more < 2; more++) {
        const size_t depth = JX_DEPTH_DEFAULT + more;
        const jx_verdict wanted = more ? (jx_verdict){JX_DEPTH_DEFAULT, JX_TOO_DEEP} : (jx_verdict){0, JX_ACCEPTED};
        const uint32_t outcome = more ? JX_TEXT_TOO_DEEP : JX_FOUND;
        jx_reader reader;
        jx_verdict told;
        jx_answer answer;
        jx_element element;
        size_t count = 0;
        nested(text, depth);
        expect(jx_check(text, 2 * depth, NULL, &told) == JX_OK && same(&told, &wanted), "a check without settings", more);
        expect(jx_reader_start(&reader, NULL) == JX_OK && jx_reader_feed(&reader, text, 2 * depth) == JX_OK, "a reader without settings", more);
        expect(jx_reader_verdict(&reader, &told) == JX_OK && same(&told, &wanted), "its verdict", more);
        expect(jx_at(text, 2 * depth, bytes(""), 0, NULL, &answer) == JX_OK && answer.outcome == outcome, "a pointer without settings", more);
        expect(jx_at_all(text, 2 * depth, NULL, &root, 1, &answer, 1) == JX_OK && answer.outcome == outcome, "pointers without settings", more);
        expect(jx_rows(text, 2 * depth, NULL, rows, JX_DEPTH_DEFAULT + 1, &count, &told) == JX_OK && same(&told, &wanted), "rows without settings", more);
        expect(count == (more ? 0 : JX_DEPTH_DEFAULT), "how many", more);
        memmove(text + 1, text, 2 * depth - 1);
        text[0] = 0x1E;
        expect(jx_elements(text, 2 * depth, NULL, &element, 1, &count) == JX_OK && count == 1, "elements without settings", more);
        expect(is_element(&element, 1, 2 * depth, more ? JX_TOO_DEEP : JX_TRUNCATED, more ? depth : 0), "which are cut", more);
    }
    jx_verdict told;
    expect(jx_check(bytes(names), strlen(names), NULL, &told) == JX_OK && is(&told, JX_ACCEPTED, 0), "any names", 0);
    expect(jx_check(mark, 3, NULL, &told) == JX_OK && is(&told, JX_STOPPED, 0), "no mark", 0);
}

int main(int count, char **words) {
    if (count != 2) return 2;
    each_row(words[1], with_a_mark_and_without);
    marks();
    names();
    sequences();
    null_settings();
    refusals();
    memory();
    return counted();
}
