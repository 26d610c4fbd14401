/* Saved indexes: made-up texts whose values are known where they are made, with chunks from 64 bytes: pointers, parts and chunks, in
 * changed, cut and swapped texts and indexes, and each request for memory refused in turn: saved FILE, whose texts are saved too.
 * Every second index has tables of names.
 * Linked with --wrap=malloc and --wrap=realloc. */
#define TEST "saved"
#define REFUSES_MEMORY
#include "testing.h"

enum { MOST = 1 << 16, VALUES = 600, NAME = 96, CHILDREN = 4000, TEXTS = 300 };

/* ---- texts whose values are known */

/* A value: where it stands, its pointer, and for a container where the comma or the bracket before each child stands. */
typedef struct value {
    jx_span span;
    uint32_t kind;
    char pointer[NAME];
    size_t first_before, children;
} value;

static uint8_t text[MOST];
static size_t size;
static value values[VALUES];
static size_t count;
static size_t befores[CHILDREN];
static size_t before_count;
static uint64_t seed;

static size_t below(size_t end) {
    seed = seed * 6364136223846793005u + 1442695040888963407u;
    return (size_t)(seed >> 33) % end;
}

static void put(const char *bytes) {
    const size_t length = strlen(bytes);
    memcpy(text + size, bytes, length);
    size += length;
}

static void blanks(void) {
    static const char *const some[] = {"", "", "", " ", "\n\t", "                    "};
    put(some[below(6)]);
}

static void scalar(value *it) {
    static const char *const words[] = {"true", "false", "null", "0", "-1.5e3", "12345678901234567890", "\"\"", "\"x\\\"]},\"", "\"\\ud83d\\ude00\\\\\"",
                                        "\"[[[{{{,,,:::\"", "\"a long string that is longer than one chunk of sixty-four bytes, so that a chunk has no mark at all in it\""};
    static const uint32_t kinds[] = {JX_TRUE, JX_FALSE, JX_NULL, JX_NUMBER, JX_NUMBER, JX_NUMBER, JX_STRING, JX_STRING, JX_STRING, JX_STRING, JX_STRING};
    const size_t which = below(11);
    it->kind = kinds[which];
    put(words[which]);
}

static void make(const char *pointer, size_t depth, size_t wide);

static void container(value *it, size_t depth, size_t wide) {
    const int is_object = it->kind == JX_OBJECT;
    char pointer[NAME + 32], name[32];
    size_t own[64];
    const size_t children = below(wide);
    for (size_t n = 0; n < children; n++) {
        own[n] = size;
        put(n != 0 ? "," : is_object ? "{" : "[");
        blanks();
        snprintf(name, sizeof name, is_object ? "k%zu" : "%zu", n);
        if (is_object) {
            put(below(4) == 0 ? "\"\\u006b" : "\"k");
            put(name + 1);
            put("\"");
            blanks();
            put(":");
            blanks();
        }
        snprintf(pointer, sizeof pointer, "%s/%s", it->pointer, name);
        make(pointer, depth - 1, wide);
        blanks();
    }
    if (children == 0) {
        put(is_object ? "{" : "[");
        blanks();
    }
    put(is_object ? "}" : "]");
    it->first_before = before_count;
    it->children = children;
    memcpy(befores + before_count, own, children * sizeof own[0]);
    before_count += children;
}

static void make(const char *pointer, size_t depth, size_t wide) {
    value spare, *it = count < VALUES ? &values[count++] : &spare;
    memset(it, 0, sizeof *it);
    snprintf(it->pointer, NAME, "%.*s", NAME - 1, pointer);
    it->span.start = size;
    it->kind = depth == 0 || size > MOST / 8 || count >= VALUES || below(4) == 0 ? JX_NULL : below(2) ? JX_OBJECT : JX_ARRAY;
    if (it->kind == JX_NULL) {
        scalar(it);
    } else {
        container(it, depth, wide);
    }
    it->span.end = size;
}

static void make_text(size_t number) {
    seed = number * 7919 + 1;
    size = count = before_count = 0;
    blanks();
    make("", 1 + below(5), 2 + below(12));
    blanks();
}

/* ---- what a save and a saved index tell */

static const size_t chunks[] = {64, 128, 1024};
static const jx_settings usual = {64, 0};

static uint32_t begin(const jx_settings *settings, size_t chunk, int has_names, jx_save *save) {
    return has_names ? jx_save_new_with_names(settings, chunk, save) : jx_save_new(settings, chunk, save);
}

/* The index of the text, with tables of names or without, by slices of one size. */
static size_t index_of(size_t chunk, size_t step, int has_names, uint8_t *index, size_t number) {
    jx_save save = {0};
    size_t index_size = 0, again = 0;
    jx_verdict verdict;
    expect(begin(&usual, chunk, has_names, &save) == JX_OK, "a text is begun", number);
    for (size_t at = 0; at < size; at += step) {
        const size_t next = step < size - at ? step : size - at;
        if (jx_save_feed(&save, text + at, next) != JX_OK) exit(2);
    }
    expect(jx_save_take(&save, index, MOST, &again) == JX_NOT_BEGUN, "no index before the end", number);
    expect(jx_save_end(&save, &index_size, &verdict) == JX_OK && verdict.kind == JX_ACCEPTED, "the text is accepted", number);
    expect(jx_save_feed(&save, text, 1) == JX_NOT_BEGUN && jx_save_end(&save, &again, &verdict) == JX_NOT_BEGUN, "it has ended", number);
    memset(index, 7, index_size + 1);
    expect(jx_save_take(&save, index, index_size - 1, &again) == JX_NO_ROOM && again == index_size && index[0] == 7, "no room", number);
    expect(jx_save_take(&save, index, MOST, &again) == JX_OK && again == index_size && index[index_size] == 7, "the index is taken", number);
    jx_save_free(&save);
    return index_size;
}

/* Gives what is needed from some bytes, as long as nothing is wrong. Counts the chunks. */
static uint32_t give_all(jx_saved *saved, const uint8_t *bytes, size_t *given, jx_span *last) {
    jx_span need = {0, 0};
    uint32_t status;
    size_t behind = 0;
    *given = 0;
    while ((status = jx_saved_needs(saved, &need)) == JX_OK && need.end != 0) {
        if (need.start < behind || need.start >= need.end || need.end > size) return 99;
        *last = need;
        if ((status = jx_saved_give(saved, bytes + need.start, need.end - need.start)) != JX_OK) return status;
        behind = need.end;
        ++*given;
    }
    return status;
}

static int is_answer(const jx_answer *told, const value *it) {
    return told->outcome == JX_FOUND && told->kind == it->kind && told->span.start == it->span.start && told->span.end == it->span.end && told->at == 0;
}

static jx_pointer as_pointer(const char *pointer) { return (jx_pointer){(const uint8_t *)pointer, strlen(pointer)}; }

/* The value of each pointer, all at once and some alone. */
static void values_are_found(jx_saved *saved, size_t chunk, size_t number) {
    static jx_pointer pointers[VALUES + 1];
    static jx_answer told[VALUES + 1], wanted[4];
    static const char *const none[4] = {"/k0/none", "/99", "/-", "x"};
    size_t given;
    jx_span last;
    int are_right = 1;
    for (size_t n = 0; n < count; n++) pointers[n] = as_pointer(values[n].pointer);
    memset(told, 7, sizeof told);
    expect(jx_saved_seek(saved, pointers, count) == JX_OK, "a look-up begins", number);
    expect(give_all(saved, text, &given, &last) == JX_OK && given <= size / chunk + 1, "chunks in order, each once", number);
    expect(jx_saved_answers(saved, told, count + 1) == JX_OK, "answers", number);
    for (size_t n = 0; n < count; n++) are_right &= is_answer(&told[n], &values[n]);
    expect(are_right, "all values at once", number);
    expect(told[count].outcome == 0x07070707, "what stands behind is as it was", number);
    expect(jx_saved_answers(saved, told, 1) == JX_NOT_BEGUN, "the look-up has ended", number);
    for (int turn = 0; turn < 6; turn++) {
        const size_t n = below(count);
        expect(jx_saved_seek(saved, &pointers[n], 1) == JX_OK && give_all(saved, text, &given, &last) == JX_OK &&
                   jx_saved_answers(saved, told, 1) == JX_OK && is_answer(told, &values[n]),
               values[n].pointer, number);
    }
    for (size_t n = 0; n < 4; n++) pointers[n] = as_pointer(none[n]);
    expect(jx_at_all(text, size, &usual, pointers, 4, wanted, 4) == JX_OK && jx_saved_seek(saved, pointers, 4) == JX_OK &&
               give_all(saved, text, &given, &last) == JX_OK && jx_saved_answers(saved, told, 4) == JX_OK,
           "what is not there", number);
    for (size_t n = 0; n < 4; n++) are_right &= told[n].outcome == wanted[n].outcome && told[n].at == wanted[n].at;
    expect(are_right, "why it is not there", number);
}

/* The parts of a container, by what was known where it was made. */
static size_t wanted_parts(const value *it, size_t parts, jx_part *wanted) {
    size_t found = 0;
    for (size_t n = 0; n < it->children; n++) {
        const size_t before = befores[it->first_before + n];
        const size_t behind = n + 1 < it->children ? befores[it->first_before + n + 1] : it->span.end - 1;
        const size_t part = (before - it->span.start) * parts / (it->span.end - it->span.start);
        if (found == 0 || wanted[found - 1].number != part) wanted[found++] = (jx_part){{before + 1, behind}, part, n, n};
        wanted[found - 1].span.end = behind;
        wanted[found - 1].end = n + 1;
    }
    return found;
}

static void containers_are_split(jx_saved *saved, size_t number) {
    static const size_t numbers[] = {1, 2, 3, 7, 50, JX_PARTS_MAX};
    static jx_part wanted[CHILDREN], told[CHILDREN];
    for (int turn = 0; turn < 12; turn++) {
        const value *it = &values[turn == 0 ? 0 : below(count)];
        const size_t parts = numbers[below(6)];
        size_t given, told_count = 99;
        jx_span last;
        if (it->kind != JX_OBJECT && it->kind != JX_ARRAY) continue;
        memset(wanted, 0, sizeof wanted);
        memset(told, 0, sizeof told);
        const size_t wanted_count = wanted_parts(it, parts, wanted);
        expect(jx_saved_split(saved, &it->span, parts) == JX_OK && jx_saved_answers(saved, NULL, 0) == JX_NOT_BEGUN && jx_saved_parts(saved, told, 1, &told_count) == JX_MORE_NEEDED, "a split begins, and no look-up", number);
        expect(give_all(saved, text, &given, &last) == JX_OK && jx_saved_answers(saved, NULL, 0) == JX_NOT_BEGUN, "it is no look-up", number);
        expect(jx_saved_parts(saved, told, CHILDREN, &told_count) == JX_OK && told_count == wanted_count, "as many parts", number);
        expect(memcmp(told, wanted, sizeof told) == 0, "the parts", number);
        expect(jx_saved_parts(saved, told, 1, &told_count) == JX_NOT_BEGUN, "the split has ended", number);
    }
}

static void chunks_are_checked(jx_saved *saved, size_t chunk, size_t number) {
    jx_span span;
    int are_right = 1;
    for (size_t at = 0; at < size; at += 1 + below(chunk)) {
        are_right &= jx_saved_chunk(saved, at, &span) == JX_OK && span.start == at / chunk * chunk && span.end == (span.start + chunk < size ? span.start + chunk : size);
        are_right &= jx_saved_check(saved, at, text + span.start, span.end - span.start) == JX_OK;
        are_right &= jx_saved_check(saved, at, text + span.start, span.end - span.start - 1) == JX_CHANGED;
        text[at] ^= 1;
        are_right &= jx_saved_check(saved, at, text + span.start, span.end - span.start) == JX_CHANGED;
        text[at] ^= 1;
    }
    expect(are_right, "chunks", number);
    expect(jx_saved_chunk(saved, (size - 1) / chunk * chunk + chunk, &span) == JX_OUT_OF_BOUNDS && jx_saved_check(saved, SIZE_MAX, text, 1) == JX_OUT_OF_BOUNDS, "behind the last chunk", number);
}

/* Of a changed text: the right answer, or the chunk that is changed. */
static void changes_are_told(jx_saved *saved, size_t number) {
    static uint8_t other[MOST];
    for (int turn = 0; turn < 20; turn++) {
        const size_t n = below(count), at = below(size);
        const jx_pointer pointer = as_pointer(values[n].pointer);
        size_t given;
        jx_span last = {0, 0};
        jx_answer told;
        memcpy(other, text, size);
        other[at] ^= (uint8_t)(1 + below(255));
        expect(jx_saved_seek(saved, &pointer, 1) == JX_OK, "a look-up in a changed text", number);
        const uint32_t status = give_all(saved, other, &given, &last);
        if (status == JX_CHANGED) {
            expect(last.start <= at && at < last.end, "the changed chunk is told", number);
            /* With the right bytes it goes on. */
            expect(give_all(saved, text, &given, &last) == JX_OK && jx_saved_answers(saved, &told, 1) == JX_OK && is_answer(&told, &values[n]), "it goes on", number);
        } else {
            expect(status == JX_OK && jx_saved_answers(saved, &told, 1) == JX_OK && is_answer(&told, &values[n]), "the change is elsewhere", number);
        }
    }
}

static int is_fault(uint32_t status) { return status >= JX_NOT_SAVED && status <= JX_OTHER_SIZE; }

/* Of other bytes than an index a fault is told, and nothing is opened. Without its tables it is an index. */
static void faults_are_told(uint8_t *index, size_t index_size, size_t without, size_t number) {
    jx_saved saved = {0};
    int are_told = 1;
    for (size_t cut = 0; cut < index_size; cut += 1 + below(24)) are_told &= cut == without || is_fault(jx_saved_open(index, cut, size, &saved));
    for (size_t cut = without + 1; cut < index_size && cut < without + 12; cut++) {
        are_told &= jx_saved_open(index, cut, size, &saved) == (cut < without + 8 ? JX_MORE_BYTES : JX_CUT_SHORT);
    }
    for (int turn = 0; turn < 40; turn++) {
        const size_t at = below(index_size);
        const uint8_t other = (uint8_t)(1 + below(255));
        index[at] ^= other;
        are_told &= is_fault(jx_saved_open(index, index_size, size, &saved));
        index[at] ^= other;
    }
    index[index_size] = 0;
    are_told &= jx_saved_open(index, index_size + 1, size, &saved) == JX_MORE_BYTES;
    are_told &= jx_saved_open(index, index_size, size + 1, &saved) == JX_OTHER_SIZE;
    are_told &= jx_saved_open(index, 60, size, &saved) == JX_CUT_SHORT && jx_saved_open((const uint8_t *)"[1]", 3, size, &saved) == JX_NOT_SAVED;
    index[7]++;
    are_told &= jx_saved_open(index, index_size, size, &saved) == JX_OTHER_VERSION;
    index[7]--;
    expect(are_told && saved.inside == NULL, "faults of an index", number);
}

static void is_saved(size_t number) {
    static uint8_t index[MOST], other[MOST];
    const size_t chunk = chunks[number % 3];
    const int has_names = number % 2 == 1;
    jx_saved saved = {0};
    jx_saved_text about;
    const size_t without = index_of(chunk, size + 1, 0, other, number);
    const size_t index_size = index_of(chunk, size + 1, has_names, index, number);
    expect(memcmp(index, other, without) == 0 && has_names == (index_size > without), "tables stand behind the index", number);
    expect(jx_saved_open(index, without, size, &saved) == JX_OK, "without its tables it is opened too", number);
    expect(index_of(chunk, 1 + below(200), has_names, other, number) == index_size && memcmp(index, other, index_size) == 0, "slices change nothing", number);
    expect(jx_saved_open(index, index_size, size, &saved) == JX_OK, "it is opened", number);
    memset(index, 0, index_size);
    expect(jx_saved_about(&saved, &about) == JX_OK && about.size == size && about.chunk == chunk && about.depth == 64 && about.flags == 0, "about the text", number);
    values_are_found(&saved, chunk, number);
    containers_are_split(&saved, number);
    chunks_are_checked(&saved, chunk, number);
    changes_are_told(&saved, number);
    faults_are_told(other, index_size, without, number);
    jx_saved_free(&saved);
    expect(saved.inside == NULL, "freed", number);
}

/* A text of several levels of blocks: few chunks are needed. */
static void blocks_are_passed(void) {
    static uint8_t index[MOST];
    jx_saved saved = {0};
    jx_pointer pointer = as_pointer("/4000");
    jx_answer told;
    jx_span last;
    size_t given = 0;
    size = 0;
    put("[");
    for (size_t n = 0; n < 8000; n++) put(n ? ",1234567" : "1234567");
    put("]");
    const size_t index_size = index_of(64, 999, 0, index, 900);
    expect(jx_saved_open(index, index_size, size, &saved) == JX_OK && jx_saved_seek(&saved, &pointer, 1) == JX_OK, "1,000 chunks", 900);
    expect(give_all(&saved, text, &given, &last) == JX_OK && given < 8, "few chunks are needed", given);
    expect(jx_saved_answers(&saved, &told, 1) == JX_OK && told.span.start == 1 + 4000 * 8 && told.span.end == 8 + 4000 * 8, "the element", 900);
    jx_saved_free(&saved);
}

/* The index of one text with another one of its size: the first chunk that differs is told. */
static void swapped_texts_are_told(void) {
    static uint8_t index[MOST], other[MOST];
    jx_saved saved = {0};
    jx_pointer pointer = as_pointer("/300");
    jx_span last = {0, 0};
    size_t given;
    size = 0;
    put("[");
    for (size_t n = 0; n < 500; n++) put(n ? ",111" : "111");
    put("]");
    memcpy(other, text, size);
    for (size_t n = 0; n < size; n++) other[n] = other[n] == '1' ? '2' : other[n];
    for (int has_names = 0; has_names < 2; has_names++) {
        const size_t index_size = index_of(128, size, has_names, index, 901);
        expect(jx_saved_open(index, index_size, size, &saved) == JX_OK && jx_saved_seek(&saved, &pointer, 1) == JX_OK, "an index", 901);
        expect(give_all(&saved, other, &given, &last) == JX_CHANGED && given == 0 && last.start == 0, "of another text", 901);
        jx_saved_free(&saved);
    }
}

/* An object of many members: by tables of their names few chunks are needed, and without them nearly all. */
static void members_are_passed(void) {
    static uint8_t index[MOST];
    static const char *const wanted[] = {"/member 0", "/member 777", "/member 1499", "/member 1500"};
    char member[64];
    size = 0;
    for (size_t n = 0; n < 1500; n++) {
        snprintf(member, sizeof member, "%c\"member %zu\":[\"a value\",1]", n ? ',' : '{', n);
        put(member);
    }
    put("}");
    for (int has_names = 0; has_names < 2; has_names++) {
        jx_saved saved = {0};
        const size_t index_size = index_of(64, 999, has_names, index, 905);
        expect(jx_saved_open(index, index_size, size, &saved) == JX_OK, "an object of many members", 905);
        for (size_t n = 0; n < 4; n++) {
            const jx_pointer pointer = as_pointer(wanted[n]);
            jx_answer told, right;
            jx_span last;
            size_t given = 0;
            expect(jx_saved_seek(&saved, &pointer, 1) == JX_OK && give_all(&saved, text, &given, &last) == JX_OK, "its members are looked at", n);
            expect(has_names ? given < 12 : given > size / 64 - 12, "chunks that are needed", given);
            expect(jx_saved_answers(&saved, &told, 1) == JX_OK && jx_at(text, size, pointer.bytes, pointer.size, &usual, &right) == JX_OK &&
                       told.outcome == right.outcome && told.span.start == right.span.start && told.span.end == right.span.end,
                   "the member", n);
        }
        jx_saved_free(&saved);
    }
}

static int read_text(void *context, size_t from, uint8_t *bytes, size_t wanted) {
    if (context != text || from + wanted > size) return 1;
    memcpy(bytes, text + from, wanted);
    return 0;
}

static void one_call_finds(void) {
    static uint8_t index[MOST];
    uint8_t buffer[64];
    jx_saved saved = {0};
    jx_answer told[2];
    const jx_pointer pointers[2] = {as_pointer("/k0"), as_pointer("/k1/x")};
    size = 0;
    put("{\"k0\":\"");
    for (size_t n = 0; n < 100; n++) put("abc");
    put("\",\"k1\":{\"x\":[1]}}");
    const size_t index_size = index_of(64, size, 1, index, 902);
    expect(jx_saved_open(index, index_size, size, &saved) == JX_OK, "opened for one call", 902);
    expect(jx_saved_find(&saved, read_text, text, buffer, sizeof buffer, pointers, 2, told) == JX_OK && told[0].span.start == 6 && told[1].kind == JX_ARRAY, "one call", 902);
    expect(jx_saved_find(&saved, read_text, NULL, buffer, sizeof buffer, pointers, 2, told) == JX_READ_FAILED, "a read that fails", 902);
    expect(jx_saved_find(&saved, read_text, text, buffer, 63, pointers, 2, told) == JX_NO_ROOM, "a short buffer", 902);
    expect(jx_saved_find(NULL, read_text, text, buffer, 64, pointers, 2, told) == JX_NO_SAVED && jx_saved_find(&saved, NULL, text, buffer, 64, pointers, 2, told) == JX_NULL_POINTER, "null", 902);
    jx_saved_free(&saved);
}

/* What is no text has no index, and the verdict is that of a check. */
static void each_of_table(const char *path) {
    FILE *table = fopen(path, "rb");
    size_t line = 1000;
    if (table == NULL) exit(2);
    while (fgets((char *)text, sizeof text, table) != NULL) {
        jx_save save = {0};
        jx_verdict wanted, told;
        size_t index_size = 99;
        size = strlen((char *)text);
        expect(jx_check(text, size, &usual, &wanted) == JX_OK && jx_save_new(&usual, 64, &save) == JX_OK, "a check", line);
        for (size_t at = 0; at < size; at++) expect(jx_save_feed(&save, text + at, 1) == JX_OK, "a byte", line);
        expect(jx_save_end(&save, &index_size, &told) == JX_OK && told.kind == wanted.kind && told.offset == wanted.offset, "the verdict", line);
        expect((told.kind == JX_ACCEPTED) == (save.inside != NULL) && (told.kind == JX_ACCEPTED) == (index_size != 0), "an index of texts alone", line);
        jx_save_free(&save);
        line++;
    }
    fclose(table);
}

/* One look-up and one split with each request refused in turn: 0 where memory was refused and told. */
static uint32_t all_of_it(const uint8_t *index, size_t index_size, size_t *told_count) {
    static jx_part parts[8];
    jx_saved saved = {0};
    jx_answer told;
    const jx_pointer pointer = as_pointer("/k0/1");
    jx_span last, whole = {0, 0};
    size_t given;
    uint32_t status = jx_saved_open(index, index_size, size, &saved);
    if (status == JX_OK) status = jx_saved_seek(&saved, &pointer, 1);
    if (status == JX_OK) status = give_all(&saved, text, &given, &last);
    if (status == JX_OK) status = jx_saved_answers(&saved, &told, 1);
    if (status == JX_OK) {
        expect(told.outcome == JX_FOUND && told.kind == JX_ARRAY, "found in spite of refusals", 903);
        whole = told.span;
        status = jx_saved_split(&saved, &whole, 4);
    }
    if (status == JX_OK) status = give_all(&saved, text, &given, &last);
    if (status == JX_OK) status = jx_saved_parts(&saved, parts, 8, told_count);
    if (status == JX_NO_MEMORY && saved.inside != NULL) {
        /* The index is there, and can be used again. */
        const long rest = granted;
        granted = -1;
        expect(jx_saved_seek(&saved, &pointer, 1) == JX_OK && give_all(&saved, text, &given, &last) == JX_OK && jx_saved_answers(&saved, &told, 1) == JX_OK && told.outcome == JX_FOUND, "it is used again", 903);
        granted = rest;
    }
    jx_saved_free(&saved);
    return status;
}

static void refusals(int has_names) {
    static uint8_t index[MOST];
    long requests = 0;
    size_t told_count = 0;
    uint32_t status;
    size = 0;
    put("{\"k0\":[1,[");
    for (size_t n = 0; n < 100; n++) put(n ? ",{\"a name that is cut\":[]}" : "0");
    put("]]}");
    const size_t index_size = index_of(64, 10, has_names, index, 903);
    do {
        granted = requests++;
        status = all_of_it(index, index_size, &told_count);
        const int is_done = granted >= 0;
        granted = -1;
        expect(is_done ? status == JX_OK && told_count == 4 : status == JX_NO_MEMORY, "want of memory is told", 903);
    } while (status != JX_OK && requests < 10000);
    expect(requests > 10, "a saved index asks for memory", 903);
    requests = 0;
    do {
        jx_save save = {0};
        jx_verdict verdict;
        size_t index_size_again = 7;
        granted = requests++;
        status = begin(&usual, 64, has_names, &save);
        for (size_t at = 0; status == JX_OK && at < size; at += 50) status = jx_save_feed(&save, text + at, size - at < 50 ? size - at : 50);
        if (status == JX_OK) status = jx_save_end(&save, &index_size_again, &verdict);
        const int is_done = granted >= 0;
        granted = -1;
        expect(is_done ? status == JX_OK && index_size_again == index_size : status == JX_NO_MEMORY && save.inside == NULL && index_size_again == 7, "a save without memory", 903);
        jx_save_free(&save);
    } while (status != JX_OK && requests < 10000);
    expect(requests > 5, "a save asks for memory", 903);
}

static void null_pointers_and_orders(void) {
    static uint8_t index[MOST];
    jx_save save = {0};
    jx_saved saved = {0};
    jx_saved_text about;
    jx_verdict verdict;
    jx_span span = {1, 2};
    jx_answer told;
    jx_part part;
    size_t number = 7;
    expect(jx_save_new(NULL, 64, NULL) == JX_NO_SAVE && jx_save_feed(NULL, NULL, 0) == JX_NO_SAVE && jx_save_end(NULL, &number, &verdict) == JX_NO_SAVE && jx_save_take(NULL, NULL, 0, &number) == JX_NO_SAVE, "no struct to save", 904);
    expect(jx_save_feed(&save, NULL, 0) == JX_NO_SAVE && jx_save_end(&save, &number, &verdict) == JX_NO_SAVE && jx_save_take(&save, NULL, 0, &number) == JX_NO_SAVE && number == 7, "no text", 904);
    expect(jx_save_new(&(jx_settings){65536, 0}, 64, &save) == JX_DEPTH_TOO_GREAT && jx_save_new(&(jx_settings){1, 4}, 64, &save) == JX_UNKNOWN_FLAG && jx_save_new(&(jx_settings){1, JX_UNIQUE_NAMES}, 64, &save) == JX_NO_UNIQUE_NAMES, "settings", 904);
    expect(jx_save_new(NULL, 63, &save) == JX_NOT_A_CHUNK && jx_save_new(NULL, 96, &save) == JX_NOT_A_CHUNK && jx_save_new(NULL, 2097152, &save) == JX_NOT_A_CHUNK && jx_save_new(NULL, 0, &save) == JX_NOT_A_CHUNK && save.inside == NULL, "chunks", 904);
    expect(jx_save_new_with_names(NULL, 64, NULL) == JX_NO_SAVE && jx_save_new_with_names(&(jx_settings){65536, 0}, 64, &save) == JX_DEPTH_TOO_GREAT && jx_save_new_with_names(&(jx_settings){1, 4}, 64, &save) == JX_UNKNOWN_FLAG && jx_save_new_with_names(&(jx_settings){1, JX_UNIQUE_NAMES}, 64, &save) == JX_NO_UNIQUE_NAMES && jx_save_new_with_names(NULL, 96, &save) == JX_NOT_A_CHUNK && save.inside == NULL, "settings and chunks, with tables", 904);
    expect(jx_save_new_with_names(NULL, JX_CHUNK_DEFAULT, &save) == JX_OK && jx_save_new(NULL, JX_CHUNK_DEFAULT, &save) == JX_OK && jx_save_new(&(jx_settings){8, JX_IGNORE_MARK}, 64, &save) == JX_OK, "another in its place", 904);
    expect(jx_save_feed(&save, NULL, 1) == JX_NULL_POINTER && jx_save_feed(&save, (const uint8_t *)"\xEF\xBB\xBF[{}]", 7) == JX_OK && jx_save_end(&save, NULL, &verdict) == JX_NULL_POINTER && jx_save_end(&save, &number, NULL) == JX_NULL_POINTER, "null bytes", 904);
    expect(jx_save_end(&save, &number, &verdict) == JX_OK && number == 64 && verdict.kind == JX_ACCEPTED && jx_save_take(&save, NULL, 1, &number) == JX_NULL_POINTER && jx_save_take(&save, index, 64, NULL) == JX_NULL_POINTER, "an index of one chunk", 904);
    expect(jx_save_take(&save, NULL, 0, &number) == JX_NO_ROOM && number == 64 && jx_save_take(&save, index, 64, &number) == JX_OK && jx_save_take(&save, index, 64, &number) == JX_OK, "taken twice", 904);
    jx_save_free(&save);
    jx_save_free(NULL);
    expect(jx_saved_open(index, 64, 7, NULL) == JX_NO_SAVED && jx_saved_open(NULL, 1, 7, &saved) == JX_NULL_POINTER && jx_saved_open(NULL, 0, 7, &saved) == JX_NOT_SAVED, "null index", 904);
    expect(jx_saved_about(&saved, &about) == JX_NO_SAVED && jx_saved_seek(&saved, NULL, 0) == JX_NO_SAVED && jx_saved_split(&saved, &span, 1) == JX_NO_SAVED && jx_saved_needs(&saved, &span) == JX_NO_SAVED && jx_saved_give(&saved, NULL, 0) == JX_NO_SAVED && jx_saved_answers(&saved, &told, 1) == JX_NO_SAVED && jx_saved_parts(&saved, &part, 1, &number) == JX_NO_SAVED && jx_saved_chunk(&saved, 0, &span) == JX_NO_SAVED && jx_saved_check(&saved, 0, index, 1) == JX_NO_SAVED, "no index", 904);
    expect(jx_saved_about(NULL, &about) == JX_NO_SAVED && jx_saved_seek(NULL, NULL, 0) == JX_NO_SAVED && jx_saved_split(NULL, &span, 1) == JX_NO_SAVED && jx_saved_needs(NULL, &span) == JX_NO_SAVED && jx_saved_give(NULL, NULL, 0) == JX_NO_SAVED && jx_saved_answers(NULL, &told, 1) == JX_NO_SAVED && jx_saved_parts(NULL, &part, 1, &number) == JX_NO_SAVED && jx_saved_chunk(NULL, 0, &span) == JX_NO_SAVED && jx_saved_check(NULL, 0, index, 1) == JX_NO_SAVED, "no struct", 904);
    expect(jx_saved_open(index, 64, 7, &saved) == JX_OK && jx_saved_about(&saved, &about) == JX_OK && about.size == 7 && about.chunk == 64 && about.depth == 8 && about.flags == JX_IGNORE_MARK, "it says how the text was read", 904);
    expect(jx_saved_give(&saved, NULL, 0) == JX_NOT_BEGUN && jx_saved_answers(&saved, &told, 1) == JX_NOT_BEGUN && jx_saved_parts(&saved, &part, 1, &number) == JX_NOT_BEGUN && jx_saved_needs(&saved, &span) == JX_OK && span.end == 0, "nothing goes on", 904);
    expect(jx_saved_about(&saved, NULL) == JX_NULL_POINTER && jx_saved_seek(&saved, NULL, 1) == JX_NULL_POINTER && jx_saved_split(&saved, NULL, 1) == JX_NULL_POINTER && jx_saved_needs(&saved, NULL) == JX_NULL_POINTER && jx_saved_give(&saved, NULL, 1) == JX_NULL_POINTER && jx_saved_answers(&saved, NULL, 1) == JX_NULL_POINTER && jx_saved_parts(&saved, NULL, 1, &number) == JX_NULL_POINTER && jx_saved_parts(&saved, &part, 1, NULL) == JX_NULL_POINTER && jx_saved_chunk(&saved, 0, NULL) == JX_NULL_POINTER && jx_saved_check(&saved, 0, NULL, 1) == JX_NULL_POINTER, "null", 904);
    for (size_t n = 0; n < 5; n++) {
        static const struct { jx_span span; size_t parts; } wrong[5] = {{{3, 3}, 1}, {{3, 8}, 1}, {{4, 3}, 1}, {{3, 7}, 0}, {{3, 7}, 65537}};
        expect(jx_saved_split(&saved, &wrong[n].span, wrong[n].parts) == JX_OUT_OF_BOUNDS, "no such split", n);
    }
    expect(jx_saved_seek(&saved, NULL, 0) == JX_OK && jx_saved_parts(&saved, &part, 1, &number) == JX_NOT_BEGUN && jx_saved_answers(&saved, &told, 1) == JX_MORE_NEEDED && jx_saved_needs(&saved, &span) == JX_OK && span.start == 0 && span.end == 7, "one chunk is needed", 904);
    expect(jx_saved_give(&saved, (const uint8_t *)"\xEF\xBB\xBF[{},", 7) == JX_CHANGED && jx_saved_give(&saved, (const uint8_t *)"\xEF\xBB\xBF[{}]", 7) == JX_OK && jx_saved_give(&saved, NULL, 0) == JX_OK && jx_saved_parts(&saved, &part, 1, &number) == JX_NOT_BEGUN && jx_saved_answers(&saved, NULL, 0) == JX_OK, "no pointers", 904);
    span = (jx_span){3, 7};
    number = 9;
    expect(jx_saved_split(&saved, &span, 3) == JX_OK && jx_saved_give(&saved, (const uint8_t *)"\xEF\xBB\xBF[{}]", 7) == JX_OK && jx_saved_parts(&saved, NULL, 0, &number) == JX_OK && number == 1, "no room for parts", 904);
    jx_saved_free(&saved);
    jx_saved_free(&saved);
    jx_saved_free(NULL);
}

int main(int argument_count, char **arguments) {
    if (argument_count != 2) return 2;
    for (size_t number = 0; number < TEXTS; number++) {
        make_text(number);
        is_saved(number);
    }
    blocks_are_passed();
    swapped_texts_are_told();
    one_call_finds();
    each_of_table(arguments[1]);
    members_are_passed();
    refusals(0);
    refusals(1);
    null_pointers_and_orders();
    return counted();
}
