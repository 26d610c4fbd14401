/* Shelves, by one thread: what each status says, which index stands there, and each request for memory refused in turn. Linked with
 * --wrap=malloc and --wrap=realloc. */
#define TEST "shelves"
#define REFUSES_MEMORY
#include "testing.h"

static const char first[] = "{\"a\":[10,20],\"b\":null}";
static const char second[] = "[true]";

static jx_index index_of(const char *text) {
    jx_index index = {0};
    jx_verdict verdict;
    if (jx_index_new(bytes(text), strlen(text), NULL, &index, &verdict) != JX_OK || verdict.kind != JX_ACCEPTED) exit(2);
    return index;
}

static jx_shelf new_shelf(void) {
    jx_shelf shelf = {0};
    if (jx_shelf_new(&shelf) != JX_OK) exit(2);
    return shelf;
}

/* Whether all that a handle tells is of this text, as an index of it alone tells it. */
static int shows(jx_shelf *shelf, const char *text) {
    static const char *const pointers[] = {"", "/a", "/a/1", "/b", "/0", "/c", "a", "/~2"};
    jx_index alone = index_of(text);
    jx_text told = {NULL, 99};
    int holds = jx_shelf_text(shelf, &told) == JX_OK && told.bytes == bytes(text) && told.size == strlen(text);
    for (size_t at = 0; at < sizeof pointers / sizeof pointers[0]; at++) {
        jx_answer wanted, answer = {{77, 77}, 77, 77, 77};
        if (jx_index_find(&alone, bytes(pointers[at]), strlen(pointers[at]), &wanted) != JX_OK) exit(2);
        holds &= jx_shelf_find(shelf, bytes(pointers[at]), strlen(pointers[at]), &answer) == JX_OK;
        holds &= answer.outcome == wanted.outcome && answer.at == wanted.at && answer.kind == wanted.kind &&
                 answer.span.start == wanted.span.start && answer.span.end == wanted.span.end;
    }
    for (size_t number = 0; number < 8; number++) {
        jx_row wanted, row = {{77, 77}, {77, 77}, 77, 77, 77};
        const uint32_t status = jx_index_row(&alone, number, &wanted);
        holds &= jx_shelf_row(shelf, number, &row) == status;
        if (status == JX_OK) holds &= row.kind == wanted.kind && row.span.start == wanted.span.start && row.parent == wanted.parent;
        if (status != JX_OK) holds &= row.kind == 77;
    }
    jx_index_free(&alone);
    return holds;
}

static int is_empty(jx_shelf *shelf) {
    jx_answer answer = {{77, 77}, 77, 77, 77};
    jx_row row = {{77, 77}, {77, 77}, 77, 77, 77};
    jx_text text = {NULL, 77};
    return jx_shelf_find(shelf, bytes("/a"), 2, &answer) == JX_NO_INDEX && answer.kind == 77 && jx_shelf_row(shelf, 0, &row) == JX_NO_INDEX &&
           row.kind == 77 && jx_shelf_text(shelf, &text) == JX_NO_INDEX && text.size == 77 && text.bytes == NULL;
}

static void the_first_index_stays_there(void) {
    jx_shelf shelf = new_shelf(), other = {0}, late = {0};
    jx_index index = index_of(first), another = index_of(second);
    expect(is_empty(&shelf), "nothing stands there", 1);
    expect(jx_shelf_share(&shelf, &other) == JX_OK && other.inside != NULL && other.inside != shelf.inside, "another handle", 1);
    expect(is_empty(&other), "nothing stands there by another handle", 1);
    expect(jx_shelf_put(&other, &index) == JX_OK && index.inside == NULL, "an index is put, and is the shelf's", 1);
    expect(shows(&shelf, first) && shows(&other, first), "both handles show it", 1);
    expect(jx_shelf_put(&shelf, &another) == JX_TAKEN && another.inside != NULL, "a second one is handed back", 1);
    jx_answer answer;
    expect(jx_index_find(&another, bytes("/0"), 2, &answer) == JX_OK && answer.kind == JX_TRUE, "it is as it was", 1);
    expect(shows(&shelf, first) && shows(&other, first), "the first one stays", 1);
    jx_shelf_free(&other);
    expect(other.inside == NULL && shows(&shelf, first), "a handle is freed, and the shelf is there", 1);
    expect(jx_shelf_share(&shelf, &late) == JX_OK && shows(&late, first), "a late handle shows it", 1);
    expect(jx_shelf_put(&late, &index) == JX_NO_INDEX, "no index is put", 1);
    jx_shelf_free(&shelf);
    expect(shows(&late, first), "the last handle shows it", 1);
    jx_shelf_free(&late);
    jx_index_free(&another);
}

static void two_shelves_are_two(void) {
    jx_shelf one = new_shelf(), two = new_shelf();
    jx_index index = index_of(first), another = index_of(second);
    expect(jx_shelf_put(&one, &index) == JX_OK && is_empty(&two), "the other shelf is empty", 2);
    expect(jx_shelf_put(&two, &another) == JX_OK && shows(&one, first) && shows(&two, second), "each shows its own", 2);
    expect(jx_shelf_share(&one, &two) == JX_OK && shows(&two, first), "what the struct held is freed", 2);
    expect(jx_shelf_new(&one) == JX_OK && is_empty(&one) && shows(&two, first), "a new one in its place", 2);
    jx_shelf_free(&one);
    jx_shelf_free(&two);
}

static void statuses(void) {
    jx_shelf none = {0}, shelf = new_shelf();
    jx_index index = index_of(second), no_index = {0};
    jx_answer answer;
    jx_row row;
    jx_text text;
    expect(jx_shelf_share(&none, &shelf) == JX_NO_SHELF && shelf.inside != NULL && jx_shelf_put(&none, &index) == JX_NO_SHELF && index.inside != NULL && jx_shelf_text(&none, &text) == JX_NO_SHELF && jx_shelf_find(&none, NULL, 0, &answer) == JX_NO_SHELF && jx_shelf_row(&none, 0, &row) == JX_NO_SHELF, "no shelf", 3);
    expect(jx_shelf_new(NULL) == JX_NO_SHELF && jx_shelf_share(NULL, &none) == JX_NO_SHELF && jx_shelf_put(NULL, &index) == JX_NO_SHELF && jx_shelf_text(NULL, &text) == JX_NO_SHELF && jx_shelf_find(NULL, NULL, 0, &answer) == JX_NO_SHELF && jx_shelf_row(NULL, 0, &row) == JX_NO_SHELF, "no struct", 3);
    expect(jx_shelf_share(&shelf, NULL) == JX_NULL_POINTER && jx_shelf_put(&shelf, NULL) == JX_NULL_POINTER && jx_shelf_text(&shelf, NULL) == JX_NULL_POINTER && jx_shelf_find(&shelf, NULL, 1, &answer) == JX_NULL_POINTER && jx_shelf_find(&shelf, NULL, 0, NULL) == JX_NULL_POINTER && jx_shelf_row(&shelf, 0, NULL) == JX_NULL_POINTER, "null", 3);
    expect(jx_shelf_put(&shelf, &no_index) == JX_NO_INDEX && is_empty(&shelf), "a struct without an index", 3);
    expect(jx_shelf_put(&shelf, &index) == JX_OK && jx_shelf_find(&shelf, NULL, 0, &answer) == JX_OK && answer.kind == JX_ARRAY, "no bytes are the root", 3);
    expect(jx_shelf_row(&shelf, 2, &row) == JX_OUT_OF_BOUNDS && jx_shelf_row(&shelf, SIZE_MAX, &row) == JX_OUT_OF_BOUNDS, "no more rows", 3);
    jx_shelf_free(NULL);
    jx_shelf_free(&none);
    jx_shelf_free(&shelf);
    jx_shelf_free(&shelf);
    expect(shelf.inside == NULL, "freed twice", 3);
}

/* The request of this number is refused, and those behind it are granted. Gives whether all goes well. */
static int goes_well(long number) {
    jx_shelf shelf = {0}, other = {0};
    jx_index index = index_of(first), another = index_of(second);
    granted = number;
    const uint32_t made = jx_shelf_new(&shelf);
    const uint32_t shared = made == JX_OK ? jx_shelf_share(&shelf, &other) : JX_NO_MEMORY;
    const uint32_t put = shared == JX_OK ? jx_shelf_put(&other, &index) : JX_NO_MEMORY;
    const uint32_t again = put == JX_OK ? jx_shelf_put(&shelf, &another) : JX_NO_MEMORY;
    const int was_refused = granted == -1;
    granted = -1;
    expect(made == JX_OK || (made == JX_NO_MEMORY && shelf.inside == NULL), "a new shelf or none", 100 + (size_t)number);
    expect(shared == JX_OK || (shared == JX_NO_MEMORY && other.inside == NULL), "another handle or none", 100 + (size_t)number);
    if (shared == JX_OK) {
        expect(put == JX_OK || put == JX_NO_MEMORY, "put or not", 100 + (size_t)number);
        expect(index.inside == NULL, "the struct holds no index any more", 100 + (size_t)number);
        expect(put == JX_OK ? shows(&shelf, first) : is_empty(&shelf), "what stands there", 100 + (size_t)number);
    }
    if (put == JX_OK) {
        expect(again == JX_TAKEN || (again == JX_NO_MEMORY && another.inside == NULL), "handed back or lost", 100 + (size_t)number);
        expect(shows(&other, first), "the first one stays", 100 + (size_t)number);
    }
    jx_shelf_free(&shelf);
    jx_shelf_free(&other);
    jx_index_free(&index);
    jx_index_free(&another);
    return !was_refused;
}

static void each_request_is_refused(void) {
    long number = 0;
    while (!goes_well(number)) {
        number++;
        if (number > 100) exit(2);
    }
    expect(number > 3, "requests were refused", (size_t)number);
}

int main(void) {
    the_first_index_stays_there();
    two_shelves_are_two();
    statuses();
    each_request_is_refused();
    return counted();
}
