/* A shelf, by eight threads at once: each puts an index of a text of its own there, while all look. All see the same index, from the
 * moment at which each sees one, and each answer is that of its text. */
#define _POSIX_C_SOURCE 200809L
#define TEST "threads"
#include "testing.h"

#include <pthread.h>

enum { THREADS = 8, ROUNDS = 50, LOOKS = 400, SIZE = 256 };

/* What a thread is given, and what it tells. */
typedef struct seat {
    jx_shelf shelf;
    jx_index index;
    size_t number;
    uint32_t put;
    size_t seen; /* the number of the text whose index it saw */
    size_t wrong;
} seat;

static char texts[THREADS][SIZE];
static seat seats[THREADS];
static pthread_barrier_t begin;

/* The text of a number: it tells its number at several places. */
static void write_text(size_t number) {
    snprintf(texts[number], SIZE, "{\"me\":%zu,\"list\":[null,%zu,{\"deep\":%zu}],\"last\":\"%zu\"}", number, number, number, number);
}

/* Whether a pointer leads to this number in the text of the number. */
static int leads_to(seat *it, const char *pointer, size_t number) {
    jx_answer answer;
    if (jx_shelf_find(&it->shelf, bytes(pointer), strlen(pointer), &answer) != JX_OK) return 0;
    return answer.outcome == JX_FOUND && answer.kind == JX_NUMBER && strtoul(texts[number] + answer.span.start, NULL, 10) == number;
}

/* One look: which index stands there, and whether all answers are those of its text. */
static void look(seat *it) {
    jx_text text = {bytes(texts[0]), 0};
    jx_row row;
    const uint32_t status = jx_shelf_text(&it->shelf, &text);
    if (status == JX_NO_INDEX) {
        it->wrong += it->seen != THREADS;
        return;
    }
    const size_t number = (size_t)((const char *)text.bytes - texts[0]) / SIZE;
    it->wrong += status != JX_OK || number >= THREADS || text.bytes != bytes(texts[number]) || text.size != strlen(texts[number]);
    it->wrong += it->seen != THREADS && it->seen != number;
    it->seen = number;
    it->wrong += !leads_to(it, "/me", number) || !leads_to(it, "/list/1", number) || !leads_to(it, "/list/2/deep", number);
    it->wrong += jx_shelf_row(&it->shelf, 0, &row) != JX_OK || row.span.end != text.size || jx_shelf_row(&it->shelf, 8, &row) != JX_OUT_OF_BOUNDS;
}

static void *run(void *given) {
    seat *it = given;
    const size_t before = it->number * LOOKS / THREADS / 4;
    pthread_barrier_wait(&begin);
    for (size_t turn = 0; turn < before; turn++) look(it);
    it->put = jx_shelf_put(&it->shelf, &it->index);
    for (size_t turn = before; turn < LOOKS; turn++) look(it);
    jx_index_free(&it->index);
    jx_shelf_free(&it->shelf);
    return NULL;
}

static void one_round(size_t round) {
    pthread_t threads[THREADS];
    jx_shelf shelf = {0};
    jx_verdict verdict;
    size_t put = 0;
    if (jx_shelf_new(&shelf) != JX_OK) exit(2);
    for (size_t number = 0; number < THREADS; number++) {
        seat *it = &seats[number];
        memset(it, 0, sizeof *it);
        it->number = (number + round) % THREADS;
        it->seen = THREADS;
        if (jx_shelf_share(&shelf, &it->shelf) != JX_OK) exit(2);
        if (jx_index_new(bytes(texts[it->number]), strlen(texts[it->number]), NULL, &it->index, &verdict) != JX_OK) exit(2);
    }
    for (size_t number = 0; number < THREADS; number++) {
        if (pthread_create(&threads[number], NULL, run, &seats[number]) != 0) exit(2);
    }
    for (size_t number = 0; number < THREADS; number++) pthread_join(threads[number], NULL);
    for (size_t number = 0; number < THREADS; number++) {
        put += seats[number].put == JX_OK;
        expect(seats[number].put == JX_OK || seats[number].put == JX_TAKEN, "put, or taken", round);
        expect(seats[number].wrong == 0, "no wrong answer", round);
        expect(seats[number].seen == seats[0].seen, "all see the same index", round);
        expect(seats[number].put != JX_OK || seats[number].number == seats[number].seen, "it is that of the thread that put it", round);
    }
    expect(put == 1, "one thread puts it", round);
    jx_shelf_free(&shelf);
}

int main(void) {
    for (size_t number = 0; number < THREADS; number++) write_text(number);
    pthread_barrier_init(&begin, NULL, THREADS);
    for (size_t round = 0; round < ROUNDS; round++) one_round(round);
    pthread_barrier_destroy(&begin);
    return counted();
}
