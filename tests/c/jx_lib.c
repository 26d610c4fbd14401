/* How fast the library reads a file on one thread: jx-lib MODE FILE, where MODE is check, or feed with slices of 4 KiB, or
 * feed:N with slices of N bytes. Prints ok or bad, the seconds of the best of REPEAT rounds, and the verdict. */
#define _POSIX_C_SOURCE 199309L
#include "jx.h"

#include <stdio.h>
#include <stdlib.h>
#include <string.h>
#include <time.h>

static double now(void) {
    struct timespec t;
    clock_gettime(CLOCK_MONOTONIC, &t);
    return (double)t.tv_sec + (double)t.tv_nsec / 1e9;
}

static int fed(const uint8_t *text, size_t size, size_t slice, jx_verdict *verdict) {
    static jx_reader reader;
    if (jx_reader_start(&reader, NULL) != JX_OK) return 0;
    for (size_t at = 0; at < size; at += slice) {
        const size_t rest = size - at;
        if (jx_reader_feed(&reader, text + at, rest < slice ? rest : slice) != JX_OK) return 0;
    }
    return jx_reader_verdict(&reader, verdict) == JX_OK;
}

int main(int count, char **words) {
    if (count < 3) return 2;
    FILE *file = fopen(words[2], "rb");
    if (file == NULL) return 2;
    if (fseek(file, 0, SEEK_END) != 0) return 2;
    const size_t size = (size_t)ftell(file);
    rewind(file);
    uint8_t *text = malloc(size + 1);
    if (text == NULL || fread(text, 1, size, file) != size) return 2;
    size_t slice = 4096;
    if (strncmp(words[1], "feed:", 5) == 0) slice = strtoul(words[1] + 5, NULL, 10);
    const int is_fed = strncmp(words[1], "feed", 4) == 0;
    if (slice == 0 || (!is_fed && strcmp(words[1], "check") != 0)) return 2;
    const char *repeat = getenv("REPEAT");
    const int rounds = repeat == NULL || atoi(repeat) < 1 ? 1 : atoi(repeat);
    jx_verdict verdict = {0, JX_TRUNCATED};
    double best = 1e9;
    for (int round = 0; round < rounds; round++) {
        const double start = now();
        const int is_read = is_fed ? fed(text, size, slice, &verdict) : jx_check(text, size, NULL, &verdict) == JX_OK;
        const double seconds = now() - start;
        if (!is_read) return 2;
        if (seconds < best) best = seconds;
    }
    printf("%s %.6f kind %u offset %zu\n", verdict.kind == JX_ACCEPTED ? "ok" : "bad", best, verdict.kind, verdict.offset);
    free(text);
    fclose(file);
    return verdict.kind != JX_ACCEPTED;
}
