/* What all targets stand on: an input and its choices, the memory that the library asks for, and what ends the program. */
#ifndef HARNESS_H
#define HARNESS_H

#include "input.h"
#include "jx.h"
#include "readers/plain.h"

/* ---- an input */

typedef struct input {
    const uint8_t *choices, *end; /* cuts, edits, pointers and forgeries are taken from these bytes */
    uint8_t *text;                /* of exactly this size, so that AddressSanitizer sees a byte too far */
    size_t size;
    jx_settings settings;
    long granted; /* how many requests for memory the first try of each call is granted; all where it is negative */
} input;

enum { MOST_TEXT = 192 << 10, MOST_DOCUMENT = 5 << 19 };

/* Sets up an input by its bytes; tells the number of its target. The text is to be freed. */
size_t input_of(input *in, const uint8_t *data, size_t size);

uint8_t choice(input *in); /* 0 behind the last one */
size_t choice_upto(input *in, size_t most);
uint64_t choice_of_eight(input *in);

/* A row of numbers that a state gives, for what is too many to be chosen byte by byte. */
void dice_start(uint64_t state);
size_t dice(size_t limit);

/* Memory of the harness itself, which is always granted. */
void *kept(size_t size);
uint8_t *kept_copy(const uint8_t *bytes, size_t size);

/* ---- the memory of the library */

void library_enter(long granted);
void library_leave(void);
int library_was_refused(void);
size_t library_requests(void); /* of the call that ended last */
size_t library_blocks(void);   /* that it holds */
size_t library_bytes(void);
size_t library_most(void); /* at once, in the call that ended last */

/* Requires that the call that ended last took no more beyond what was held than a fixed part and so many bytes for each that it was
 * given. */
void require_bounded(size_t held, size_t given, size_t for_each, const char *what);

/* ---- what must hold */

_Noreturn void wrong(const char *what, const char *file, int line);

#define REQUIRE(holds, what) \
    do { \
        if (!(holds)) wrong(what, __FILE__, __LINE__); \
    } while (0)

/* Calls the library for the input `in`, at first with few requests for memory granted if the input says so. Want of memory must be told
 * only then, and must leave what `unchanged` looks at; then the call is made again with all requests granted. */
#define CALL(status, call, unchanged) CALL_THAT(0, status, call, unchanged)

/* The same for a call on a document, which may keep memory of a refused one until it is freed. */
#define CALL_ON_DOCUMENT(status, call, unchanged) CALL_THAT(1, status, call, unchanged)

#define CALL_THAT(may_keep, status, call, unchanged) \
    do { \
        const size_t blocks_before = library_blocks(); \
        library_enter(in->granted); \
        status = (call); \
        library_leave(); \
        if (status != JX_NO_MEMORY) break; \
        REQUIRE(library_was_refused(), "want of memory, and none was refused"); \
        REQUIRE(unchanged, "changed where memory is refused"); \
        REQUIRE(may_keep || library_blocks() == blocks_before, "a refused call keeps memory"); \
        library_enter(-1); \
        status = (call); \
        library_leave(); \
    } while (0)

/* ---- what structs say */

extern const jx_verdict no_verdict; /* before a call wrote one */
int same_verdict(const jx_verdict *a, const jx_verdict *b);
int is_no_verdict(const jx_verdict *verdict);
int same_row(const jx_row *a, const jx_row *b);
int same_answer(const jx_answer *a, const jx_answer *b);

/* Room for some structs that no call has written to yet, and whether that is still so. */
void *unwritten(size_t size);
int is_unwritten(const void *block, size_t size);

#endif
