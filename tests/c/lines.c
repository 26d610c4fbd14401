/* JSON Lines: a few by their definition, short inputs cut at each byte and in slices of each size, the texts of the table and each
 * beginning of them as lines, and each request for memory refused in turn: lines FILE. Linked with --wrap=malloc and
 * --wrap=realloc. */
#define TEST "lines"
#define REFUSES_MEMORY
#include "testing.h"

enum { MOST = 64 };

/* What an input comes to: its bad lines, the last one without a line feed among them, and how many lines there are. */
typedef struct told {
    jx_line bad[MOST];
    size_t count;
    jx_line_counts counts;
} told;

static int same_line(const jx_line *a, const jx_line *b) {
    return a->number == b->number && a->span.start == b->span.start && a->span.end == b->span.end && a->verdict.kind == b->verdict.kind && a->verdict.offset == b->verdict.offset;
}

static int same_told(const told *a, const told *b) {
    if (a->count != b->count || a->counts.accepted != b->counts.accepted || a->counts.refused != b->counts.refused || a->counts.blank != b->counts.blank) return 0;
    for (size_t n = 0; n < a->count; n++) {
        if (!same_line(&a->bad[n], &b->bad[n])) return 0;
    }
    return 1;
}

/* ---- an input by the definition: line feeds cut it, and each line is a text of its own */

static int is_blank(uint8_t byte) { return byte == ' ' || byte == '\t' || byte == '\r' || byte == '\n'; }

static jx_verdict wanted_of(const uint8_t *bytes, size_t size, int is_ended, const jx_settings *settings, size_t at) {
    jx_verdict verdict = {0, JX_BLANK};
    size_t front = 0;
    while (front < size && is_blank(bytes[front])) front++;
    if (front == size) return verdict;
    /* The first line may be a part of a mark that is ignored. */
    if (jx_check(bytes, size, &(jx_settings){settings->depth, at == 0 ? settings->flags : 0}, &verdict) != JX_OK) exit(2);
    if (verdict.kind == JX_STOPPED || verdict.kind == JX_TOO_DEEP) verdict.offset += at;
    if (verdict.kind == JX_ACCEPTED && !is_ended && strchr("0123456789el", bytes[size - 1]) != NULL) verdict.kind = JX_MAY_BE_CUT;
    return verdict;
}

static void wanted(const uint8_t *bytes, size_t size, const jx_settings *settings, told *all) {
    size_t start = 0;
    memset(all, 0, sizeof *all);
    if (settings->flags == JX_IGNORE_MARK && size >= 3 && memcmp(bytes, "\xEF\xBB\xBF", 3) == 0) start = 3;
    for (size_t number = 1; start < size; number++) {
        const uint8_t *feed = memchr(bytes + start, '\n', size - start);
        const size_t end = feed == NULL ? size : (size_t)(feed - bytes);
        const jx_verdict verdict = wanted_of(bytes + start, end - start, feed != NULL, settings, start);
        if (verdict.kind == JX_ACCEPTED) {
            all->counts.accepted++;
        } else {
            if (verdict.kind == JX_BLANK) all->counts.blank++;
            else all->counts.refused++;
            if (all->count == MOST) exit(2);
            all->bad[all->count++] = (jx_line){number, {start, end}, verdict};
        }
        start = end + 1;
    }
}

/* ---- an input by the library */

/* Takes the lines that wait: first into too little room, where there are some, then into enough. */
static void take(jx_lines *lines, told *all, size_t line) {
    size_t count = 99;
    jx_line before[MOST];
    memcpy(before, all->bad, sizeof before);
    const uint32_t status = jx_lines_take(lines, all->bad + all->count, 0, &count);
    expect(status == (count == 0 ? JX_OK : JX_NO_ROOM) && memcmp(before, all->bad, sizeof before) == 0, "no room for lines", line);
    if (count > MOST - all->count) exit(2);
    const size_t told_before = count;
    expect(jx_lines_take(lines, all->bad + all->count, MOST - all->count, &count) == JX_OK && count == told_before, "lines are taken", line);
    all->count += count;
    expect(jx_lines_take(lines, NULL, 0, &count) == JX_OK && count == 0, "each line is taken once", line);
}

/* Feeds bytes that end where their memory does, so that one byte too many that is read is seen. */
static void feed(jx_lines *lines, const uint8_t *bytes, size_t size, size_t line) {
    uint8_t *copy = malloc(size + (size == 0));
    if (copy == NULL) exit(2);
    memcpy(copy, bytes, size);
    expect(jx_lines_feed(lines, copy, size) == JX_OK, "a slice is read", line);
    free(copy);
}

static void end(jx_lines *lines, told *all, size_t line) {
    jx_line last;
    memset(&last, 0x5A, sizeof last);
    expect(jx_lines_end(lines, &last, &all->counts) == JX_OK, "the end is told", line);
    if (last.number == 0) {
        const jx_line none = {0, {0, 0}, {0, JX_ACCEPTED}};
        expect(same_line(&last, &none), "no last line", line);
    } else {
        if (all->count == MOST) exit(2);
        all->bad[all->count++] = last;
    }
}

/* By slices of one size, the first of which may have another. The end may be asked for at any time. */
static void by_slices(const uint8_t *bytes, size_t size, const jx_settings *settings, size_t first, size_t step, told *all, size_t line) {
    jx_lines lines = {0};
    told so_far;
    told wants;
    memset(all, 0, sizeof *all);
    expect(jx_lines_new(settings, &lines) == JX_OK, "a reader", line);
    for (size_t at = 0, next = first;; next = step) {
        if (next > size - at) next = size - at;
        feed(&lines, bytes + at, next, line);
        take(&lines, all, line);
        at += next;
        so_far = *all;
        end(&lines, &so_far, line);
        wanted(bytes, at, settings, &wants);
        expect(same_told(&so_far, &wants), "what the beginning comes to", line);
        if (at == size) break;
    }
    end(&lines, all, line);
    jx_lines_free(&lines);
    expect(lines.inside == NULL, "the struct is empty", line);
    jx_lines_free(&lines);
}

static void each_cut(const uint8_t *bytes, size_t size, const jx_settings *settings, size_t line) {
    told wants;
    told all;
    wanted(bytes, size, settings, &wants);
    for (size_t first = 0; first <= size; first++) {
        by_slices(bytes, size, settings, first, size + 1, &all, line);
        expect(same_told(&all, &wants), "cut in two", line);
    }
    for (size_t step = 1; step <= size && step <= 9; step++) {
        by_slices(bytes, size, settings, step, step, &all, line);
        expect(same_told(&all, &wants), "in slices of one size", line);
    }
}

/* ---- what is tried */

static void few(void) {
    static const char *const inputs[] = {
        "", "\n", "\n\n", "1", "1\n", "1\n2", "1\r\n2\r\n", "\r", " \t\r\n", "{\"a\":1}\n[\n]\n", "true\nfalse\nnul", "null", "null ", "\"a\n\"", "[[[]]]\n[[[[]]]]\n", "{}\n\n \n[]",
        "\xEF\xBB\xBF", "\xEF\xBB", "\xEF\xBB\xBF\n\xEF\xBB\xBF\n", "\xEF\xBB\xBF[]\n", "\xEF\xBB\xBF\xEF\xBB\xBF", "\xEF\n\xBB\xBF", "-\n-1\n1.\n1.5e", "\"\xC3\xA9\"\n\"\xC3\n\xA9\"", "[1,2]x\n{\"a\":1,\"a\":2}\n", "\"\\n\"\n\"\\u00\n",
    };
    for (size_t n = 0; n < sizeof inputs / sizeof *inputs; n++) {
        for (uint32_t flags = 0; flags <= JX_IGNORE_MARK; flags++) {
            for (uint32_t depth = 0; depth < 4; depth++) each_cut((const uint8_t *)inputs[n], strlen(inputs[n]), &(jx_settings){depth, flags}, n);
        }
    }
    /* By hand. */
    static const char text[] = "{\"n\":1}\n{\"n\":\n\n[1,x]\r\n12";
    const told known = {{{2, {8, 13}, {0, JX_TRUNCATED}}, {3, {14, 14}, {0, JX_BLANK}}, {4, {15, 21}, {18, JX_STOPPED}}, {5, {22, 24}, {0, JX_MAY_BE_CUT}}}, 4, {1, 3, 1}};
    told all;
    by_slices((const uint8_t *)text, strlen(text), &(jx_settings){JX_DEPTH_DEFAULT, 0}, 5, 7, &all, 0);
    expect(same_told(&all, &known), "by hand", 0);
    jx_lines lines = {0};
    jx_line last = {0};
    jx_line_counts counts;
    expect(jx_lines_new(NULL, &lines) == JX_OK && jx_lines_feed(&lines, NULL, 0) == JX_OK, "null settings, no bytes", 0);
    expect(jx_lines_feed(&lines, (const uint8_t *)"[", 1) == JX_OK && jx_lines_end(&lines, &last, &counts) == JX_OK && last.number == 1, "the end is asked for", 0);
    expect(jx_lines_feed(&lines, (const uint8_t *)"]", 1) == JX_OK && jx_lines_end(&lines, &last, &counts) == JX_OK && last.number == 0 && counts.accepted == 1, "and it goes on", 0);
    expect(jx_lines_new(NULL, &lines) == JX_OK && jx_lines_end(&lines, &last, &counts) == JX_OK && counts.accepted == 0, "a new one in its place", 0);
    jx_lines moved = lines;
    jx_lines_free(&moved);
}

/* Each text of the table, and each beginning of it, as a line among others. */
static void each_beginning(const row *row) {
    static uint8_t input[ROW + 4] = "[]\n";
    memcpy(input + 3, row->text, row->size);
    for (size_t length = 0; length <= row->size; length++) {
        const uint8_t next = input[3 + length];
        const jx_settings settings = {row->depth, (uint32_t)(length % 2)};
        told wants;
        told all;
        for (size_t fed = 0; fed < 2; fed++) {
            if (fed == 1) input[3 + length] = '\n';
            wanted(input, 3 + length + fed, &settings, &wants);
            by_slices(input, 3 + length + fed, &settings, length % 5, 1 + length % 97, &all, row->line);
            expect(same_told(&all, &wants), "a beginning is a line", row->line);
        }
        input[3 + length] = next;
    }
}

/* Each request refused in turn. A reader that wants memory is lost, and told to be. */
static void refusals(void) {
    static const char text[] = "[1]\n[[[[\n\n\n}\n\n[[[[[[[[[[[";
    long requests = 0;
    for (;; requests++) {
        jx_lines lines = {0};
        size_t count = 99;
        jx_line bad[8];
        jx_line_counts counts;
        granted = requests;
        uint32_t status = jx_lines_new(&(jx_settings){8, 0}, &lines);
        granted = granted < 0 ? -2 : granted;
        expect(status == JX_OK || (status == JX_NO_MEMORY && lines.inside == NULL), "a reader without memory", 0);
        if (status == JX_OK) status = jx_lines_feed(&lines, (const uint8_t *)text, strlen(text));
        granted = -1;
        if (status == JX_OK) {
            expect(jx_lines_take(&lines, bad, 8, &count) == JX_OK && count == 5, "all is there", 0);
            jx_lines_free(&lines);
            break;
        }
        expect(status == JX_NO_MEMORY && lines.inside == NULL, "lines without memory", 0);
        expect(jx_lines_feed(&lines, (const uint8_t *)"1", 1) == JX_NO_LINES && jx_lines_take(&lines, bad, 8, &count) == JX_NO_LINES && count == 99, "the reader is lost", 0);
        expect(jx_lines_end(&lines, bad, &counts) == JX_NO_LINES, "its end is", 0);
        jx_lines_free(&lines);
    }
    expect(requests > 1, "lines ask for memory", 0);
}

static void null_pointers_and_settings(void) {
    jx_lines lines = {0};
    size_t count = 99;
    jx_line line = {77, {0, 0}, {0, 0}};
    jx_line_counts counts = {0, 0, 0};
    expect(jx_lines_new(NULL, NULL) == JX_NO_LINES && jx_lines_feed(NULL, NULL, 0) == JX_NO_LINES, "no struct", 0);
    expect(jx_lines_take(NULL, &line, 1, &count) == JX_NO_LINES && jx_lines_end(NULL, &line, &counts) == JX_NO_LINES, "no struct", 1);
    jx_lines_free(NULL);
    expect(jx_lines_feed(&lines, (const uint8_t *)"1", 1) == JX_NO_LINES && jx_lines_take(&lines, &line, 1, &count) == JX_NO_LINES, "no reader", 0);
    expect(jx_lines_end(&lines, &line, &counts) == JX_NO_LINES && count == 99 && line.number == 77, "no reader", 1);
    expect(jx_lines_new(&(jx_settings){65536, 0}, &lines) == JX_DEPTH_TOO_GREAT && jx_lines_new(&(jx_settings){1, 4}, &lines) == JX_UNKNOWN_FLAG, "settings", 0);
    expect(jx_lines_new(&(jx_settings){1, JX_UNIQUE_NAMES}, &lines) == JX_NO_UNIQUE_NAMES && lines.inside == NULL, "unique names", 0);
    expect(jx_lines_new(NULL, &lines) == JX_OK && jx_lines_feed(&lines, NULL, 1) == JX_NULL_POINTER, "null bytes", 0);
    expect(jx_lines_take(&lines, NULL, 1, &count) == JX_NULL_POINTER && jx_lines_take(&lines, &line, 1, NULL) == JX_NULL_POINTER, "null buffers", 0);
    expect(jx_lines_end(&lines, NULL, &counts) == JX_NULL_POINTER && jx_lines_end(&lines, &line, NULL) == JX_NULL_POINTER, "null ends", 0);
    /* No byte of the slice is looked at where too many come. */
    expect(jx_lines_feed(&lines, (const uint8_t *)"[\n", 2) == JX_OK && jx_lines_feed(&lines, (const uint8_t *)"", SIZE_MAX) == JX_TOO_MANY_BYTES, "too many bytes", 0);
    expect(jx_lines_take(&lines, &line, 1, &count) == JX_OK && count == 1 && line.number == 1, "what waited still waits", 0);
    jx_lines_free(&lines);
}

int main(int count, char **words) {
    if (count != 2) return 2;
    few();
    each_row(words[1], each_beginning);
    refusals();
    null_pointers_and_settings();
    return counted();
}
