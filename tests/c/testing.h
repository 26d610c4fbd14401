/* What the tests in C share: counts, and the rows of a table of texts. A test defines TEST before it, the name that its lines begin
 * with, and REFUSES_MEMORY where it is linked with --wrap=malloc and --wrap=realloc. */
#ifndef TESTING_H
#define TESTING_H

#include "jx.h"

#include <stdio.h>
#include <stdlib.h>
#include <string.h>

enum { ROW = 4096, TOLD = 40 };

static int passed;
static int failed;

/* Counts what holds, and tells what does not, with a number that says where. */
static inline void expect(int holds, const char *what, size_t number) {
    if (holds) {
        passed++;
    } else {
        failed++;
        if (failed <= TOLD) fprintf(stderr, TEST ": FAILED: %s, %zu\n", what, number);
    }
}

/* Tells the counts. Gives the status to exit with. */
static inline int counted(void) {
    printf(TEST ": %d passed, %d failed\n", passed, failed);
    return failed != 0;
}

static inline const uint8_t *bytes(const char *text) { return (const uint8_t *)text; }

static inline int is(const jx_verdict *verdict, uint32_t kind, size_t offset) { return verdict->kind == kind && verdict->offset == offset; }

static inline int same(const jx_verdict *a, const jx_verdict *b) { return is(a, b->kind, b->offset); }

/* A row of the table: a text, and what it comes to at a depth. */
typedef struct row {
    uint8_t text[ROW];
    size_t size;
    uint32_t depth;
    jx_verdict verdict;
    size_t line;
} row;

/* Writes the bytes that a word spells, and gives how many they are. */
static inline size_t spelt(const char *word, uint8_t *into) {
    size_t size = 0;
    while (*word != 0) {
        if (strncmp(word, "\\x", 2) == 0) {
            const char digits[3] = {word[2], word[3], 0};
            into[size++] = (uint8_t)strtoul(digits, NULL, 16);
            word += 4;
        } else {
            into[size++] = (uint8_t)*word++;
        }
    }
    return size;
}

static inline uint32_t kind_of(const char *word) {
    static const char *const words[] = {"accepted", "stopped", "truncated", "too_deep"};
    for (uint32_t kind = 0; kind < 4; kind++) {
        if (strcmp(word, words[kind]) == 0) return kind;
    }
    fprintf(stderr, TEST ": no verdict: %s\n", word);
    exit(2);
}

/* Has each row of the table taken. */
static inline void each_row(const char *file, void (*take)(const row *)) {
    static char words[ROW];
    static row next;
    FILE *table = fopen(file, "r");
    if (table == NULL) exit(2);
    for (next.line = 1; fgets(words, sizeof words, table) != NULL; next.line++) {
        char word[16];
        int at = 0;
        if (words[0] == '#') continue;
        words[strcspn(words, "\n")] = 0;
        if (sscanf(words, "%15s %zu %u%n", word, &next.verdict.offset, &next.depth, &at) != 3) exit(2);
        next.verdict.kind = kind_of(word);
        next.size = spelt(words + at + 1, next.text);
        take(&next);
    }
    fclose(table);
}

#ifdef REFUSES_MEMORY
void *__real_malloc(size_t size);
void *__real_realloc(void *block, size_t size);
void *__wrap_malloc(size_t size);
void *__wrap_realloc(void *block, size_t size);

/* How many requests are granted before one is refused; none is where it is negative. */
static long granted = -1;

static int is_refused(void) { return granted >= 0 && granted-- == 0; }

void *__wrap_malloc(size_t size) { return is_refused() ? NULL : __real_malloc(size); }

void *__wrap_realloc(void *block, size_t size) { return is_refused() ? NULL : __real_realloc(block, size); }
#endif

#endif
