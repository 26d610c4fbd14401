#include "pointers.h"

#include "../readers/saved.h"
#include "../readers/xxh64.h"

#include <stdlib.h>
#include <string.h>

enum { MOST_PARTS = 40 };

static jx_answer wanted[MOST_POINTERS];
static jx_answer answers[MOST_POINTERS];

static uint32_t begin(const input *in, size_t chunk, int has_names, jx_save *save) {
    return has_names ? jx_save_new_with_names(&in->settings, chunk, save) : jx_save_new(&in->settings, chunk, save);
}

/* An index of the input's text, with tables of names or without, by slices that are cut anywhere; none where the text is refused. */
static uint8_t *index_of(input *in, size_t chunk, int has_names, const jx_verdict *verdict, size_t *size) {
    jx_save save = {NULL};
    jx_verdict told = no_verdict;
    uint32_t status;
    CALL(status, begin(in, chunk, has_names, &save), save.inside == NULL);
    REQUIRE(status == JX_OK && save.inside != NULL, "an index begins");
    library_enter(-1);
    for (size_t at = 0, cuts = 0; at < in->size; cuts++) {
        const size_t slice = cuts < 40 ? choice_upto(in, in->size - at) : in->size - at;
        REQUIRE(jx_save_feed(&save, in->text + at, slice) == JX_OK, "a slice of a text");
        at += slice;
    }
    REQUIRE(jx_save_end(&save, size, &told) == JX_OK && same_verdict(&told, verdict), "the verdict on a text that is indexed");
    REQUIRE((save.inside != NULL) == (told.kind == JX_ACCEPTED) && (*size > 0) == (told.kind == JX_ACCEPTED), "an index of texts alone");
    library_leave();
    if (told.kind != JX_ACCEPTED) return NULL;
    uint8_t *index = kept(*size);
    library_enter(-1);
    REQUIRE(*size == 0 || jx_save_take(&save, index, *size - 1, size) == JX_NO_ROOM, "room for an index");
    REQUIRE(jx_save_take(&save, index, *size, size) == JX_OK, "the bytes of an index");
    jx_save_free(&save);
    library_leave();
    return index;
}

static jx_span needed(jx_saved *saved) {
    jx_span need;
    library_enter(-1);
    REQUIRE(jx_saved_needs(saved, &need) == JX_OK, "what is needed");
    library_leave();
    return need;
}

static uint32_t given(jx_saved *saved, const uint8_t *bytes, size_t size) {
    library_enter(-1);
    const uint32_t status = jx_saved_give(saved, bytes, size);
    library_leave();
    return status;
}

/* Gives the chunks that are needed, now and then with a byte changed first. Gives the status that ended it. */
static uint32_t give_all(input *in, jx_saved *saved) {
    size_t before = 0;
    for (;;) {
        const jx_span need = needed(saved);
        if (need.end == 0) return JX_OK;
        REQUIRE(before <= need.start && need.start < need.end && need.end <= in->size, "a chunk behind those before it, in the text");
        before = need.end;
        uint8_t *bytes = kept_copy(in->text + need.start, need.end - need.start);
        if (choice(in) % 8 == 1) {
            const size_t at = choice_upto(in, need.end - need.start - 1);
            bytes[at] ^= 0x40;
            REQUIRE(given(saved, bytes, need.end - need.start) == JX_CHANGED, "a changed chunk");
            bytes[at] ^= 0x40;
        }
        const uint32_t status = given(saved, bytes, need.end - need.start);
        free(bytes);
        if (status != JX_OK) return status;
    }
}

static void seek(input *in, jx_saved *saved, const pointers *p) {
    uint32_t status;
    CALL(status, jx_saved_seek(saved, p->all, p->count), 1);
    REQUIRE(status == JX_OK, "a look-up begins");
    REQUIRE(give_all(in, saved) == JX_OK, "all chunks that are needed");
    library_enter(-1);
    REQUIRE(jx_saved_answers(saved, answers, p->count) == JX_OK, "the answers by an index");
    library_leave();
    for (size_t k = 0; k < p->count; k++) REQUIRE(same_answer(&answers[k], &wanted[k]), "an answer by an index");
}

/* Where the comma or bracket behind a value stands. */
static size_t end_behind(const uint8_t *text, size_t at) {
    while (text[at] != ',' && text[at] != ']' && text[at] != '}') at++;
    return at;
}

/* Writes the parts of a container that have a child, by its rows; tells how many. */
static size_t parts_of(const input *in, const plain_rows *rows, size_t container, size_t asked, jx_part *parts) {
    const jx_span span = rows->all[container].span;
    size_t count = 0, from = span.start, place = 0;
    for (size_t row = container + 1; row < rows->count && rows->all[row].span.start < span.end; row++) {
        if (rows->all[row].parent != container) continue;
        const size_t number = (size_t)((unsigned __int128)(from - span.start) * asked / (span.end - span.start));
        const size_t behind = end_behind(in->text, rows->all[row].span.end);
        if (count == 0 || parts[count - 1].number != number) parts[count++] = (jx_part){{from + 1, behind}, number, place, place};
        parts[count - 1].span.end = behind;
        parts[count - 1].end = ++place;
        from = behind;
    }
    return count;
}

static void split(input *in, jx_saved *saved, const plain_rows *rows) {
    static jx_part want[MOST_PARTS], told[MOST_PARTS];
    const size_t row = choice_upto(in, rows->count - 1), asked = 1 + choice(in) % MOST_PARTS;
    if (rows->all[row].kind != JX_ARRAY && rows->all[row].kind != JX_OBJECT) return;
    const size_t count = parts_of(in, rows, row, asked, want);
    size_t found = 0;
    library_enter(-1);
    REQUIRE(jx_saved_split(saved, &rows->all[row].span, asked) == JX_OK, "a split begins");
    library_leave();
    REQUIRE(give_all(in, saved) == JX_OK, "all chunks of a split");
    library_enter(-1);
    REQUIRE(jx_saved_parts(saved, told, MOST_PARTS, &found) == JX_OK && found == count, "how many parts");
    library_leave();
    for (size_t k = 0; k < count; k++) {
        REQUIRE(told[k].span.start == want[k].span.start && told[k].span.end == want[k].span.end && told[k].number == want[k].number &&
                    told[k].first == want[k].first && told[k].end == want[k].end,
                "a part");
    }
}

static void open_own(input *in, const uint8_t *index, size_t size, jx_saved *saved) {
    uint32_t status;
    CALL(status, jx_saved_open(index, size, in->size, saved), saved->inside == NULL);
    REQUIRE(status == JX_OK, "an index is opened");
    require_bounded(library_bytes(), size, 16, "an index takes too much memory");
}

static void close_index(jx_saved *saved) {
    library_enter(-1);
    jx_saved_free(saved);
    library_leave();
    REQUIRE(saved->inside == NULL, "an index that is freed");
}

void find_in_saved(input *in) {
    static pointers p;
    plain_rows rows;
    jx_saved saved = {NULL};
    size_t size = 0;
    in->settings.flags &= JX_IGNORE_MARK;
    const size_t chunk = (size_t)64 << choice(in) % 6;
    const int has_names = choice(in) % 2 == 1;
    const jx_verdict verdict = plain_read(in->text, 0, in->size, &in->settings, &rows);
    uint8_t *index = index_of(in, chunk, has_names, &verdict, &size);
    if (index == NULL) return;
    open_own(in, index, size, &saved);
    make_pointers(in, &rows, &p);
    make_more_pointers(in, &rows, &p, choice(in));
    for (size_t k = 0; k < p.count; k++) wanted[k] = plain_find(in->text, &rows, &verdict, p.all[k].bytes, p.all[k].size);
    seek(in, &saved, &p);
    split(in, &saved, &rows);
    close_index(&saved);
    free_pointers(&p);
    free(index);
}

/* Makes the digest behind tables that of all bytes before it. */
static void seal_tables(uint8_t *index, size_t size) {
    const uint64_t digest = xxh64(index, size - 8);
    for (size_t k = 0; k < 8; k++) index[size - 8 + k] = (uint8_t)(digest >> 8 * k);
}

/* Changes bytes of an index, and mostly makes the rest of it fit. */
static void forge_index(input *in, uint8_t *index, size_t size, int has_names, size_t chunks) {
    for (int k = 1 + choice(in) % 4; k > 0; k--) {
        const size_t at = choice_upto(in, size - 1);
        index[at] = choice(in) % 2 ? (uint8_t)(index[at] ^ 1) : choice(in) % 20;
    }
    if (choice(in) % 4 != 3 && size >= SAVED_HEAD) saved_seal(index, chunks);
    if (has_names && choice(in) % 4 != 3) seal_tables(index, size);
}

static int is_of_open(uint32_t status) {
    return status == JX_OK || status == JX_NOT_SAVED || status == JX_OTHER_VERSION || status == JX_CUT_SHORT || status == JX_DAMAGED ||
           status == JX_MALFORMED || status == JX_MORE_BYTES || status == JX_OTHER_SIZE;
}

static int is_of_walk(uint32_t status) { return status == JX_OK || status == JX_CHANGED || status == JX_DAMAGED; }

/* A look-up and a split by an index that somebody made up: each call tells a status of the header, and all of them end. */
static void walk_forged(input *in, jx_saved *saved) {
    static const char *const words[] = {"", "/0", "/1/0", "/a", "/a/b", "/-", "/2", "/9"};
    static jx_part parts[MOST_PARTS];
    jx_pointer all[8];
    size_t count = 0;
    for (size_t k = 0; k < 8; k++) all[k] = (jx_pointer){(const uint8_t *)words[k], strlen(words[k])};
    library_enter(-1);
    REQUIRE(jx_saved_seek(saved, all, 8) == JX_OK, "a look-up begins");
    library_leave();
    const uint32_t sought = give_all(in, saved);
    const jx_span span = {choice_upto(in, in->size), choice_upto(in, in->size)};
    library_enter(-1);
    if (sought == JX_OK) REQUIRE(is_of_walk(jx_saved_answers(saved, answers, 8)), "answers by what is made up");
    const uint32_t begun = jx_saved_split(saved, &span, 1 + choice(in) % MOST_PARTS);
    library_leave();
    if (begun != JX_OK || give_all(in, saved) != JX_OK) return;
    library_enter(-1);
    REQUIRE(is_of_walk(jx_saved_parts(saved, parts, MOST_PARTS, &count)) && count <= MOST_PARTS, "parts by what is made up");
    library_leave();
}

void open_forged_saved(input *in) {
    plain_rows rows;
    jx_saved saved = {NULL};
    size_t size = 0;
    uint32_t status;
    in->settings.flags &= JX_IGNORE_MARK;
    const size_t chunk = (size_t)64 << choice(in) % 3;
    const int has_names = choice(in) % 2 == 1;
    const jx_verdict verdict = plain_read(in->text, 0, in->size, &in->settings, &rows);
    uint8_t *index = index_of(in, chunk, has_names, &verdict, &size);
    if (index == NULL) return;
    forge_index(in, index, size, has_names, saved_chunks(in->size, chunk));
    const size_t given = choice(in) % 8 == 7 ? choice_upto(in, size) : size;
    CALL(status, jx_saved_open(index, given, in->size, &saved), saved.inside == NULL);
    REQUIRE(is_of_open(status) && (status == JX_OK) == (saved.inside != NULL), "the status of what is made up");
    require_bounded(library_most(), size, 64, "what is made up takes too much memory");
    if (status == JX_OK) walk_forged(in, &saved);
    close_index(&saved);
    free(index);
}
