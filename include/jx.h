/* Checks whether bytes are a JSON text (RFC 8259), and at which byte they stop being one. Version 0.3.0. Begin with jx_check.
 *
 * Every call returns a status. Any status but JX_OK leaves the caller's structs unchanged, unless a call says more. Offsets and
 * sizes count bytes, depths count containers.
 *
 * Ownership: the caller owns all memory that it passes, and no call but jx_index_new, jx_finder_new, jx_values_new and
 * jx_saved_seek keeps a pointer to it. Handles are memory of the library: a document, an index, a shelf, a saved index, a save, a
 * look-up, a stream of values and a reader of lines. What calls that end in _new, _share or _open take, those that end in _free
 * give back.
 * A pointer must not be null, not even one to bytes with the size 0. Settings may be; calls on handles return a status for a null
 * pointer. What a call writes to must not overlap anything else that it is passed.
 *
 * Threads: calls share no state but a shelf, which is there for that, so any number of threads may call at once, each with its own
 * structs. One call at a time may use a struct that it writes to, or a handle. No call starts a thread or waits for one. Do not
 * call from a signal handler. A call takes at most JX_STACK_MOST bytes of its thread's stack.
 *
 * Names that end in _non_null are what the inline call below them calls, which handles null pointers: call that one. The libraries
 * export it too, for languages that do not read this header. CHANGELOG.md says what callers change from version to version.
 */
#ifndef JX_H
#define JX_H

#include <stddef.h>
#include <stdint.h>

#ifdef __cplusplus
extern "C" {
#endif

/* Statuses. */
enum {
    JX_OK = 0,              /* success */
    JX_NO_MEMORY = 1,       /* out of memory */
    JX_DEPTH_TOO_GREAT = 2, /* the depth is above JX_DEPTH_MAX */
    JX_NOT_STARTED = 3,     /* the reader was not started */
    JX_TOO_MANY_BYTES = 4,  /* the reader would have been fed 2^64 bytes or more, or a part would end there or after */
    JX_UNKNOWN_FLAG = 5,    /* unknown flag */
    JX_NO_UNIQUE_NAMES = 6, /* a reader, a document, a look-up, a stream, a save or a reader of lines keeps no names to check */
    JX_OUT_OF_BOUNDS = 7,   /* the range ends before it starts, or after the last byte; or there is no such row or chunk */
    JX_NO_DOCUMENT = 8,     /* the struct holds no document, or the pointer to it is null */
    JX_NULL_POINTER = 9,    /* another pointer to a call on a handle is null */
    JX_NO_INDEX = 10,       /* the struct holds no index, or the pointer to it is null */
    JX_NO_ROOM = 11,        /* there is more than the buffer has room for, and nothing was written to it: see the size or count */
    JX_NOT_A_RUN = 12,      /* the bytes are no run that this version of the library writes */
    JX_OTHER_DEPTH = 13,    /* the runs were made with different depths */
    JX_NOT_NEIGHBOURS = 14, /* the right run does not begin where the left one ends, or the run is of other bytes */
    JX_NO_LINES = 15,       /* the struct holds no reader of lines, or the pointer to it is null */
    /* 16 is not used */
    JX_NO_FINDER = 17,      /* the struct holds no look-up, or the pointer to it is null */
    JX_NO_VALUES = 18,      /* the struct holds no stream of values, or the pointer to it is null */
    JX_NOT_A_POINTER = 19,  /* the bytes are not a JSON Pointer: jx_at says why, of any text */
    JX_NOT_SAVED = 20,      /* the bytes do not begin as a saved index does */
    JX_OTHER_VERSION = 21,  /* the saved index is of another version of the format */
    JX_CUT_SHORT = 22,      /* the bytes of the saved index end too early */
    JX_DAMAGED = 23,        /* the saved index is not that of any text */
    JX_MALFORMED = 24,      /* the saved index has a field that no index has */
    JX_MORE_BYTES = 25,     /* other bytes than tables of names follow the saved index, or any follow the tables */
    JX_OTHER_SIZE = 26,     /* the saved index is of a text of another size */
    JX_CHANGED = 27,        /* the bytes of the chunk are not those of the text that was indexed */
    JX_NO_SAVED = 28,       /* the struct holds no saved index, or the pointer to it is null */
    JX_NO_SAVE = 29,        /* the struct holds no save, or the pointer to it is null */
    JX_NOT_A_CHUNK = 30,    /* the size of a chunk is no power of two from 64 to 1,048,576 */
    JX_MORE_NEEDED = 31,    /* bytes of the text are needed first */
    JX_NOT_BEGUN = 32,      /* no such look-up or split was begun; or the text has ended, or has not */
    JX_READ_FAILED = 33,    /* jx_saved_find: the caller's read_at failed, or gave fewer bytes */
    JX_NO_SHELF = 34,       /* the struct holds no shelf, or the pointer to it is null */
    JX_TAKEN = 35,          /* another index stands on the shelf */
    JX_NOT_REFUSED = 36     /* the verdict does not refuse a text */
};

/* The name of a status, as JX_NO_MEMORY; "?" of any other number. It is never freed. */
static inline const char *jx_status_name(uint32_t status) {
    switch (status) {
    case JX_OK: return "JX_OK";
    case JX_NO_MEMORY: return "JX_NO_MEMORY";
    case JX_DEPTH_TOO_GREAT: return "JX_DEPTH_TOO_GREAT";
    case JX_NOT_STARTED: return "JX_NOT_STARTED";
    case JX_TOO_MANY_BYTES: return "JX_TOO_MANY_BYTES";
    case JX_UNKNOWN_FLAG: return "JX_UNKNOWN_FLAG";
    case JX_NO_UNIQUE_NAMES: return "JX_NO_UNIQUE_NAMES";
    case JX_OUT_OF_BOUNDS: return "JX_OUT_OF_BOUNDS";
    case JX_NO_DOCUMENT: return "JX_NO_DOCUMENT";
    case JX_NULL_POINTER: return "JX_NULL_POINTER";
    case JX_NO_INDEX: return "JX_NO_INDEX";
    case JX_NO_ROOM: return "JX_NO_ROOM";
    case JX_NOT_A_RUN: return "JX_NOT_A_RUN";
    case JX_OTHER_DEPTH: return "JX_OTHER_DEPTH";
    case JX_NOT_NEIGHBOURS: return "JX_NOT_NEIGHBOURS";
    case JX_NO_LINES: return "JX_NO_LINES";
    case JX_NO_FINDER: return "JX_NO_FINDER";
    case JX_NO_VALUES: return "JX_NO_VALUES";
    case JX_NOT_A_POINTER: return "JX_NOT_A_POINTER";
    case JX_NOT_SAVED: return "JX_NOT_SAVED";
    case JX_OTHER_VERSION: return "JX_OTHER_VERSION";
    case JX_CUT_SHORT: return "JX_CUT_SHORT";
    case JX_DAMAGED: return "JX_DAMAGED";
    case JX_MALFORMED: return "JX_MALFORMED";
    case JX_MORE_BYTES: return "JX_MORE_BYTES";
    case JX_OTHER_SIZE: return "JX_OTHER_SIZE";
    case JX_CHANGED: return "JX_CHANGED";
    case JX_NO_SAVED: return "JX_NO_SAVED";
    case JX_NO_SAVE: return "JX_NO_SAVE";
    case JX_NOT_A_CHUNK: return "JX_NOT_A_CHUNK";
    case JX_MORE_NEEDED: return "JX_MORE_NEEDED";
    case JX_NOT_BEGUN: return "JX_NOT_BEGUN";
    case JX_READ_FAILED: return "JX_READ_FAILED";
    case JX_NO_SHELF: return "JX_NO_SHELF";
    case JX_TAKEN: return "JX_TAKEN";
    case JX_NOT_REFUSED: return "JX_NOT_REFUSED";
    default: return "?";
    }
}

/* Depths: how many containers may be open at once (RFC 8259, section 9, allows such a limit). A scalar has depth 0, a
 * container one more than its deepest child. */
enum {
    JX_DEPTH_DEFAULT = 512, /* the default of the program jx */
    JX_DEPTH_MAX = 65535
};

/* So many bytes of its thread's stack a call takes at most, as measured on texts of 512 and of 65535 levels. */
enum { JX_STACK_MOST = 65536 };

/* Flags of settings. */
enum {
    /* Ignore a byte order mark, the bytes EF BB BF, in front of a text and before all white space (RFC 8259, section 8.1).
     * Offsets count its bytes. Input that ends within it is truncated, as is a first line (jx_lines). Without this flag it is
     * stopped at 0. */
    JX_IGNORE_MARK = 1,
    /* Refuse duplicate names in an object, at the offset of the first duplicate. Names are equal if their values are, as
     * lists of UTF-16 code units. Without this flag any names are accepted (RFC 8259, section 4). */
    JX_UNIQUE_NAMES = 2
};

/* How a call reads a text. Null in place of settings stands for {JX_DEPTH_DEFAULT, 0}. */
typedef struct jx_settings {
    uint32_t depth; /* how many containers may be open at once, at most JX_DEPTH_MAX */
    uint32_t flags; /* the sum of flags, 0 for none */
} jx_settings;

/* The settings that null stands for, or those that are passed. */
static inline const jx_settings *jx_settings_or_default(const jx_settings *settings) {
    static const jx_settings usual = {JX_DEPTH_DEFAULT, 0};
    return settings == NULL ? &usual : settings;
}

/* Kinds of verdicts. Elements of sequences have two more, and so have lines. */
enum {
    JX_ACCEPTED = 0,     /* the bytes are a text */
    JX_STOPPED = 1,      /* the bytes up to and with the one at the offset begin no valid text */
    JX_TRUNCATED = 2,    /* the text ends too early: more bytes can complete it */
    JX_TOO_DEEP = 3,     /* only a greater depth lets the text go on with the byte at the offset */
    JX_REPEATED_NAME = 6 /* with JX_UNIQUE_NAMES: the name at the offset is a duplicate */
};

typedef struct jx_verdict {
    size_t offset; /* of the byte, from the text's start; 0 if the kind has none */
    uint32_t kind; /* JX_ACCEPTED .. JX_REPEATED_NAME */
} jx_verdict;

uint32_t jx_check_non_null(const uint8_t *text, size_t size, const jx_settings *settings, jx_verdict *verdict);

/* Checks whether the bytes are a JSON text (RFC 8259, section 2). The offset of a refusal is the length of the longest
 * beginning of a text.
 *
 * Allocates nothing without JX_UNIQUE_NAMES; with it, memory in proportion to the names of the objects that are open at
 * once, freed before the call returns. Returns JX_OK, JX_DEPTH_TOO_GREAT, JX_UNKNOWN_FLAG, or JX_NO_MEMORY with JX_UNIQUE_NAMES.
 * */
static inline uint32_t jx_check(const uint8_t *text, size_t size, const jx_settings *settings, jx_verdict *verdict) {
    return jx_check_non_null(text, size, jx_settings_or_default(settings), verdict);
}

/* Where a byte stands, for people. */
typedef struct jx_place {
    size_t line;   /* from 1; a line feed ends a line */
    size_t column; /* the character in its line, from 1; each byte but 80 to BF begins one */
} jx_place;

uint32_t jx_explain_non_null(const uint8_t *text, size_t size, const jx_settings *settings, const jx_verdict *verdict,
                             uint8_t *sentence, size_t room, size_t *sentence_size, jx_place *place);

/* Says what is wrong with a refused text in a sentence, that of the program `jx explain`, as `expected a comma or ], found 2`.
 * It is in English and in UTF-8; bytes of the text that are not printed are in it as \xHH. `verdict` is that of jx_check on the
 * text by these settings. Of a line or an element pass its bytes alone, and the offset from its start.
 *
 * Writes as many bytes of the sentence as fit to `sentence`, and leaves the rest of it unchanged: no NUL ends the sentence, and a
 * cut may split a character. Writes to `sentence_size` how many bytes the whole sentence has. A first call with room 0 says so;
 * `sentence` must not be null in it. Writes to `place` where the byte at the offset stands, or the end of a text that is truncated.
 *
 * Reads the text up to the offset; all of it for a duplicate name. Allocates memory in proportion to the open containers and to
 * the sentence, and for a duplicate name what jx_index_new does, and frees it. Returns JX_OK, JX_NO_MEMORY,
 * JX_DEPTH_TOO_GREAT, JX_UNKNOWN_FLAG, JX_NOT_REFUSED, or JX_OUT_OF_BOUNDS for an offset above `size`. */
static inline uint32_t jx_explain(const uint8_t *text, size_t size, const jx_settings *settings, const jx_verdict *verdict,
                                  uint8_t *sentence, size_t room, size_t *sentence_size, jx_place *place) {
    return jx_explain_non_null(text, size, jx_settings_or_default(settings), verdict, sentence, room, sentence_size, place);
}

uint32_t jx_compact_non_null(const uint8_t *text, size_t size, const jx_settings *settings, uint8_t *compact, size_t room,
                             size_t *compact_size, jx_verdict *verdict);

/* Writes the compact form of a JSON text to `compact`: its tokens one after another, without the white space between them
 * (RFC 8259, section 2). Each token keeps its bytes: no number, name or string is rewritten. An ignored byte order mark is left
 * out. Writes the form's size to `compact_size`. It is at most `size`, so a room of `size` bytes is enough. A form of more than
 * `room` bytes is not written, and JX_NO_ROOM is returned: its size says how much room a second call needs.
 *
 * The bytes are checked first, and the verdict is that of jx_check. Of bytes that are refused nothing is written, and
 * `compact_size` is 0. No byte of `compact` after the form is changed.
 *
 * Allocates nothing without JX_UNIQUE_NAMES; with it, what jx_check does. Returns JX_OK, JX_NO_ROOM, JX_DEPTH_TOO_GREAT,
 * JX_UNKNOWN_FLAG, or JX_NO_MEMORY with JX_UNIQUE_NAMES. */
static inline uint32_t jx_compact(const uint8_t *text, size_t size, const jx_settings *settings, uint8_t *compact, size_t room,
                                  size_t *compact_size, jx_verdict *verdict) {
    return jx_compact_non_null(text, size, jx_settings_or_default(settings), compact, room, compact_size, verdict);
}

/* Reads a text slice by slice. Its size is fixed, and it keeps no byte of the text. The words are private to the library. A
 * started reader may be copied. It needs no cleanup. */
typedef struct jx_reader {
    uint64_t words[1031];
} jx_reader;

uint32_t jx_reader_start_non_null(jx_reader *reader, const jx_settings *settings);

/* Starts a text, whatever the reader held. Slices may cut an ignored byte order mark anywhere. A reader keeps no names, so it
 * refuses JX_UNIQUE_NAMES.
 *
 * Allocates nothing. Returns JX_OK, JX_DEPTH_TOO_GREAT, JX_UNKNOWN_FLAG or JX_NO_UNIQUE_NAMES. */
static inline uint32_t jx_reader_start(jx_reader *reader, const jx_settings *settings) {
    return jx_reader_start_non_null(reader, jx_settings_or_default(settings));
}

/* Feeds the next bytes of the text. Bytes after a fault are counted, not read. A slice may have any size, including 0, and
 * may end anywhere, including inside a character.
 *
 * Allocates nothing. Returns JX_OK, JX_NOT_STARTED or JX_TOO_MANY_BYTES. */
uint32_t jx_reader_feed(jx_reader *reader, const uint8_t *bytes, size_t size);

/* Gives the verdict on all bytes fed so far, as one text: that of jx_check by the reader's settings. Offsets count from the
 * first byte fed. The reader may be fed on.
 *
 * Allocates nothing. Returns JX_OK or JX_NOT_STARTED. */
uint32_t jx_reader_verdict(const jx_reader *reader, jx_verdict *verdict);

/* A part of the bytes: from start up to, but not including, end. */
typedef struct jx_span {
    size_t start;
    size_t end;
} jx_span;

/* Kinds of values (RFC 8259, section 3). */
enum {
    JX_OBJECT = 0,
    JX_ARRAY = 1,
    JX_STRING = 2,
    JX_NUMBER = 3,
    JX_TRUE = 4,
    JX_FALSE = 5,
    JX_NULL = 6
};

/* Outcomes of a pointer (RFC 6901, sections 3 and 4). */
enum {
    JX_FOUND = 0,            /* it leads to a value: see kind and span */
    JX_NO_SUCH_MEMBER = 1,   /* token `at` names no member of the object */
    JX_NAME_REPEATED = 2,    /* token `at` names two or more members of the object */
    JX_NOT_AN_INDEX = 3,     /* in an array, token `at` is no index: not -, not 0, not digits without a leading 0 */
    JX_PAST_END = 4,         /* the index in token `at` is not below the count of the array's elements */
    JX_AFTER_LAST = 5,       /* token `at` is -, the place after an array's last element */
    JX_NOT_A_CONTAINER = 6,  /* token `at` would go on from a value that is neither an object nor an array */
    JX_NO_SLASH = 7,         /* the pointer is not empty and does not start with / */
    JX_BAD_ESCAPE = 8,       /* byte `at` of the pointer is a ~ without 0 or 1 after it */
    JX_NOT_UTF8 = 9,         /* the pointer is not UTF-8 */
    JX_TEXT_STOPPED = 10,    /* not a text: JX_STOPPED at `at` */
    JX_TEXT_TRUNCATED = 11,  /* not a text: JX_TRUNCATED */
    JX_TEXT_TOO_DEEP = 12,   /* not a text: JX_TOO_DEEP at `at` */
    JX_TEXT_REPEATED_NAME = 13 /* a text with a duplicate name: JX_REPEATED_NAME at `at` */
};

typedef struct jx_answer {
    jx_span span;     /* of the value found, a string with its quotation marks; else 0 and 0 */
    size_t at;        /* a token's number, from 0, or an offset; 0 if the outcome has none */
    uint32_t outcome; /* JX_FOUND .. JX_TEXT_REPEATED_NAME */
    uint32_t kind;    /* JX_OBJECT .. JX_NULL; 0 if nothing was found */
} jx_answer;

uint32_t jx_at_non_null(const uint8_t *text, size_t size, const uint8_t *pointer, size_t pointer_size,
                        const jx_settings *settings, jx_answer *answer);

/* Finds the value that a JSON Pointer (RFC 6901) names in a JSON text. A malformed pointer is reported before the text is
 * read.
 *
 * Reads the text once, or twice with JX_UNIQUE_NAMES. Allocates memory in proportion to the pointer and to how deep the text
 * nests, with JX_UNIQUE_NAMES also what jx_check does, and frees it. Returns JX_OK, JX_NO_MEMORY, JX_DEPTH_TOO_GREAT or
 * JX_UNKNOWN_FLAG. */
static inline uint32_t jx_at(const uint8_t *text, size_t size, const uint8_t *pointer, size_t pointer_size,
                             const jx_settings *settings, jx_answer *answer) {
    return jx_at_non_null(text, size, pointer, pointer_size, jx_settings_or_default(settings), answer);
}

/* The bytes of a pointer. */
typedef struct jx_pointer {
    const uint8_t *bytes;
    size_t size;
} jx_pointer;

uint32_t jx_at_all_non_null(const uint8_t *text, size_t size, const jx_settings *settings, const jx_pointer *pointers,
                            size_t count, jx_answer *answers, size_t room);

/* Finds the values that many pointers name in one text, each as jx_at does. Writes as many answers as fit, in the order of the
 * pointers, and leaves the rest of `answers` unchanged. `pointers` and `answers` must not be null.
 *
 * Reads the text once for all of them, or twice with JX_UNIQUE_NAMES. Allocates memory in proportion to the pointers and to how
 * deep the text nests, with JX_UNIQUE_NAMES also what jx_check does, and frees it. Returns JX_OK, JX_NO_MEMORY,
 * JX_DEPTH_TOO_GREAT or JX_UNKNOWN_FLAG. */
static inline uint32_t jx_at_all(const uint8_t *text, size_t size, const jx_settings *settings, const jx_pointer *pointers,
                                 size_t count, jx_answer *answers, size_t room) {
    return jx_at_all_non_null(text, size, jx_settings_or_default(settings), pointers, count, answers, room);
}

/* A look-up of pointers in a text that comes slice by slice, as it is read, in constant memory beside the pointers.
 *
 * The struct is a handle, which the library alone writes. Set it to {0}, which holds no look-up, before its first call. Free it
 * once. It may be moved, also to another thread. Do not use a copy of it after a call on another copy.
 *
 * Null pointers change nothing, and the status is JX_NO_FINDER where `finder` is null, else JX_NULL_POINTER. Settings may be
 * null, and so may bytes of the size 0, and a list or a buffer without room. */
typedef struct jx_finder {
    void *inside;
} jx_finder;

uint32_t jx_finder_new_non_null(const jx_pointer *pointers, size_t count, const jx_settings *settings, jx_finder *finder);
uint32_t jx_finder_feed_non_null(jx_finder *finder, const uint8_t *bytes, size_t size);
uint32_t jx_finder_end_non_null(jx_finder *finder, jx_answer *answers, size_t room);
void jx_finder_free_non_null(jx_finder *finder);

/* Begins a look-up of pointers (RFC 6901) in a text. The list, and the bytes of each pointer, must stay as they are until the
 * look-up ends or is freed: the library keeps pointers to them. A look-up that the struct held is freed. Any status but JX_OK
 * leaves the struct as it was. It keeps no names, so it refuses JX_UNIQUE_NAMES.
 *
 * Allocates memory in proportion to the pointers, which jx_finder_end and jx_finder_free free. Returns JX_OK, JX_NO_MEMORY,
 * JX_DEPTH_TOO_GREAT, JX_UNKNOWN_FLAG, JX_NO_UNIQUE_NAMES, JX_NO_FINDER or JX_NULL_POINTER. */
static inline uint32_t jx_finder_new(const jx_pointer *pointers, size_t count, const jx_settings *settings,
                                     jx_finder *finder) {
    static const uint8_t empty[1] = {0};
    static const jx_pointer none[1] = {{empty, 0}};
    if (finder == NULL) return JX_NO_FINDER;
    if (pointers == NULL && count != 0) return JX_NULL_POINTER;
    return jx_finder_new_non_null(pointers == NULL ? none : pointers, count, jx_settings_or_default(settings), finder);
}

/* Feeds the next bytes of the text. A slice may have any size, including 0, and may end anywhere, including inside a
 * character: the answers are the same for all slices. Of the text a name is kept that a slice cuts, until it ends.
 *
 * Allocates memory for how deep the text nests where pointers lead, and for such a name. After JX_NO_MEMORY the struct holds
 * no look-up. Returns JX_OK, JX_NO_MEMORY, JX_TOO_MANY_BYTES for 2^64 bytes or more in all, JX_NO_FINDER or JX_NULL_POINTER. */
static inline uint32_t jx_finder_feed(jx_finder *finder, const uint8_t *bytes, size_t size) {
    static const uint8_t none[1] = {0};
    if (finder == NULL) return JX_NO_FINDER;
    if (bytes == NULL && size != 0) return JX_NULL_POINTER;
    return jx_finder_feed_non_null(finder, bytes == NULL ? none : bytes, size);
}

/* Ends the look-up: writes what each pointer names in the text of all bytes that were fed, as jx_at does, in the order of
 * the pointers. Writes as many answers as fit, and leaves the rest of `answers` unchanged. The look-up is freed, and the struct
 * set to {0}, whatever is returned.
 *
 * Allocates memory in proportion to the pointers and frees it. Returns JX_OK, JX_NO_MEMORY, JX_NO_FINDER or JX_NULL_POINTER. */
static inline uint32_t jx_finder_end(jx_finder *finder, jx_answer *answers, size_t room) {
    jx_answer none[1];
    if (finder == NULL) return JX_NO_FINDER;
    if (answers == NULL && room != 0) return JX_NULL_POINTER;
    return jx_finder_end_non_null(finder, answers == NULL ? none : answers, room);
}

/* Frees the look-up, if there is one, and sets the struct to {0}. So a second call on the same struct does nothing, nor does
 * one with a null pointer. */
static inline void jx_finder_free(jx_finder *finder) {
    if (finder != NULL) jx_finder_free_non_null(finder);
}

/* The elements of an array, or the values of an object's members, in a text that comes slice by slice: each in compact form, as
 * soon as it is due. Beside the value or the name that is not whole yet no byte of the text is kept.
 *
 * A pointer leads to the array or object, by the first member of each of its names; the empty one leads to the root. The compact
 * form of a value is its tokens one after another, without the white space between them (RFC 8259, section 2); each token keeps
 * its bytes. A string has no line feed (section 7), so each form is one line.
 *
 * A value is due once the comma or the bracket after it is read, before the first fault of the text. So of "[1,2,3x" the values
 * 1 and 2 are due, and of "[1,2 " the value 1. What is due stays due, whatever comes after it, and is the same for all slices.
 * Of a text all values are due.
 *
 * The struct is a handle, which the library alone writes. Set it to {0}, which holds no stream, before its first call. Free it
 * once. It may be moved, also to another thread. Do not use a copy of it after a call on another copy.
 *
 * Null pointers change nothing, and the status is JX_NO_VALUES where `values` is null, else JX_NULL_POINTER. Settings may be
 * null, and so may bytes of the size 0, and a buffer without room. */
typedef struct jx_values {
    void *inside;
} jx_values;

/* Where the pointer of a stream leads. */
typedef struct jx_outcome {
    size_t at;     /* a token's number, from 0, or an offset in the text; 0 if the kind has none */
    uint32_t kind; /* JX_FOUND .. JX_NOT_A_CONTAINER, or JX_TEXT_STOPPED .. JX_TEXT_TOO_DEEP */
} jx_outcome;

uint32_t jx_values_new_non_null(const uint8_t *pointer, size_t pointer_size, const jx_settings *settings, jx_values *values);
uint32_t jx_values_feed_non_null(jx_values *values, const uint8_t *bytes, size_t size);
uint32_t jx_values_take_non_null(jx_values *values, uint8_t *lines, size_t room, size_t *size);
uint32_t jx_values_end_non_null(jx_values *values, jx_outcome *outcome);
void jx_values_free_non_null(jx_values *values);

/* Begins a text. The bytes of the pointer (RFC 6901) must stay as they are until the stream ends or is freed: the library keeps a
 * pointer to them. A stream that the struct held is freed. Any status but JX_OK leaves the struct as it was. A stream keeps no
 * names, so it refuses JX_UNIQUE_NAMES.
 *
 * Allocates memory in proportion to the pointer, which jx_values_end and jx_values_free free. Returns JX_OK, JX_NO_MEMORY,
 * JX_DEPTH_TOO_GREAT, JX_UNKNOWN_FLAG, JX_NO_UNIQUE_NAMES, JX_NOT_A_POINTER, JX_NO_VALUES or JX_NULL_POINTER. */
static inline uint32_t jx_values_new(const uint8_t *pointer, size_t pointer_size, const jx_settings *settings,
                                     jx_values *values) {
    static const uint8_t root[1] = {0};
    if (values == NULL) return JX_NO_VALUES;
    if (pointer == NULL && pointer_size != 0) return JX_NULL_POINTER;
    return jx_values_new_non_null(pointer == NULL ? root : pointer, pointer_size, jx_settings_or_default(settings), values);
}

/* Feeds the next bytes of the text. A slice may have any size, including 0, and may end anywhere, including inside a character.
 * Values that became due wait then.
 *
 * Allocates memory in proportion to the values that wait, and to the value or the name that is not whole yet. After JX_NO_MEMORY
 * the struct holds no stream, and what waited is lost. Returns JX_OK, JX_NO_MEMORY, JX_TOO_MANY_BYTES for 2^64 bytes or more in
 * all, JX_NO_VALUES or JX_NULL_POINTER. */
static inline uint32_t jx_values_feed(jx_values *values, const uint8_t *bytes, size_t size) {
    static const uint8_t none[1] = {0};
    if (values == NULL) return JX_NO_VALUES;
    if (bytes == NULL && size != 0) return JX_NULL_POINTER;
    return jx_values_feed_non_null(values, bytes == NULL ? none : bytes, size);
}

/* Moves all values that wait to `lines`, in order: those that are due, and were not taken before. Behind the compact form of each
 * stands a line feed, the byte 0A. Writes how many bytes they are to `size`, and leaves the rest of `lines` unchanged. More than
 * `room` bytes are not moved, and JX_NO_ROOM is returned: `size` says how much room a second call needs. So all lines that were
 * taken are at any time the values that are due of the bytes fed by the last call before.
 *
 * Allocates nothing. Returns JX_OK, JX_NO_ROOM, JX_NO_VALUES or JX_NULL_POINTER. */
static inline uint32_t jx_values_take(jx_values *values, uint8_t *lines, size_t room, size_t *size) {
    uint8_t none[1];
    if (values == NULL) return JX_NO_VALUES;
    if (size == NULL || (lines == NULL && room != 0)) return JX_NULL_POINTER;
    return jx_values_take_non_null(values, lines == NULL ? none : lines, room, size);
}

/* Ends the stream. Writes where the pointer leads in the text of all bytes fed: JX_FOUND where it leads to an array or an object,
 * by names of which each names one member. Else the kind is that of jx_at; JX_NOT_A_CONTAINER also has the count of the pointer's
 * tokens in `at`, where it leads to a scalar. Bytes that are not valid JSON have the kind of their refusal. Take what waits
 * before: no value becomes due by the end, and those that wait are lost. The struct holds no stream afterwards.
 *
 * May allocate, and frees it. After JX_NO_MEMORY the stream is freed, and nothing was written. Returns JX_OK, JX_NO_MEMORY,
 * JX_NO_VALUES or JX_NULL_POINTER. */
static inline uint32_t jx_values_end(jx_values *values, jx_outcome *outcome) {
    if (values == NULL) return JX_NO_VALUES;
    if (outcome == NULL) return JX_NULL_POINTER;
    return jx_values_end_non_null(values, outcome);
}

/* Frees the stream, if there is one, and sets the struct to {0}. So a second call on the same struct does nothing, nor does one
 * with a null pointer. */
static inline void jx_values_free(jx_values *values) {
    if (values != NULL) jx_values_free_non_null(values);
}

/* A value of a text. */
typedef struct jx_row {
    jx_span span;  /* a string with its quotation marks, a container with its brackets */
    jx_span name;  /* of its name, with the quotation marks; 0 and 0 if its parent is no object */
    size_t parent; /* number of the row of its array or object; SIZE_MAX for the root, row 0 */
    size_t place;  /* how many values come before it in its parent; 0 for the root */
    uint32_t kind; /* JX_OBJECT .. JX_NULL */
} jx_row;

uint32_t jx_rows_non_null(const uint8_t *text, size_t size, const jx_settings *settings, jx_row *rows, size_t room,
                          size_t *count, jx_verdict *verdict);

/* Lists all values of a JSON text in the order of their starts. Writes as many rows as fit to `rows` and leaves the rest of
 * it unchanged. Writes how many there are to `count`, 0 if the text is refused, also for a duplicate name. A first call with
 * room 0 says how much room a second one needs; `rows` must not be null in either. Spans count the bytes of an ignored byte
 * order mark.
 *
 * Allocates memory in proportion to the count of values and frees it. Returns JX_OK, JX_NO_MEMORY, JX_DEPTH_TOO_GREAT or
 * JX_UNKNOWN_FLAG. */
static inline uint32_t jx_rows(const uint8_t *text, size_t size, const jx_settings *settings, jx_row *rows, size_t room,
                               size_t *count, jx_verdict *verdict) {
    return jx_rows_non_null(text, size, jx_settings_or_default(settings), rows, room, count, verdict);
}

/* The index of a text, for many calls over it.
 *
 * The struct is a handle, which the library alone writes. Set it to {0}, which holds no index, before its first call. Free it
 * once. It may be moved, also to another thread. Do not use a copy of it after a call on another copy.
 *
 * The index keeps a pointer to the text. Until the index is freed, the text must stay where it is, and nothing may change it.
 *
 * Null pointers change nothing, and the status is JX_NO_INDEX where `index` is null, else JX_NULL_POINTER. Settings may be
 * null, and so may bytes of the size 0. */
typedef struct jx_index {
    void *inside;
} jx_index;

uint32_t jx_index_new_non_null(const uint8_t *text, size_t size, const jx_settings *settings, jx_index *index, jx_verdict *verdict);
uint32_t jx_index_find_non_null(jx_index *index, const uint8_t *pointer, size_t pointer_size, jx_answer *answer);
uint32_t jx_index_row_non_null(jx_index *index, size_t number, jx_row *row);
void jx_index_free_non_null(jx_index *index);

/* Reads a text by settings, writes the verdict, and indexes the text if it is accepted; the struct holds no index if it is
 * refused. An index that the struct held is freed. Any status but JX_OK leaves both structs as they were.
 *
 * Allocates memory in proportion to the count of values, which jx_index_free frees. Returns JX_OK, JX_NO_MEMORY,
 * JX_DEPTH_TOO_GREAT, JX_UNKNOWN_FLAG, JX_NO_INDEX or JX_NULL_POINTER. */
static inline uint32_t jx_index_new(const uint8_t *text, size_t size, const jx_settings *settings, jx_index *index,
                                    jx_verdict *verdict) {
    static const uint8_t none[1] = {0};
    if (index == NULL) return JX_NO_INDEX;
    if (verdict == NULL || (text == NULL && size != 0)) return JX_NULL_POINTER;
    return jx_index_new_non_null(text == NULL ? none : text, size, jx_settings_or_default(settings), index, verdict);
}

/* Finds the value that a JSON Pointer (RFC 6901) names, as jx_at does by the settings of the index. In an object it
 * looks at as many names as a binary search needs, in an array at one element.
 *
 * Allocates nothing. Returns JX_OK, JX_NO_INDEX or JX_NULL_POINTER. */
static inline uint32_t jx_index_find(jx_index *index, const uint8_t *pointer, size_t pointer_size, jx_answer *answer) {
    static const uint8_t none[1] = {0};
    if (index == NULL) return JX_NO_INDEX;
    if (answer == NULL || (pointer == NULL && pointer_size != 0)) return JX_NULL_POINTER;
    return jx_index_find_non_null(index, pointer == NULL ? none : pointer, pointer_size, answer);
}

/* Gives a value by the number of its row, as jx_rows lists it: 0 is the root.
 *
 * Allocates nothing. Returns JX_OK, JX_OUT_OF_BOUNDS if there are no more rows, JX_NO_INDEX or JX_NULL_POINTER. */
static inline uint32_t jx_index_row(jx_index *index, size_t number, jx_row *row) {
    if (index == NULL) return JX_NO_INDEX;
    if (row == NULL) return JX_NULL_POINTER;
    return jx_index_row_non_null(index, number, row);
}

/* Frees the index, if there is one, and sets the struct to {0}. So a second call on the same struct does nothing, nor does one
 * with a null pointer. */
static inline void jx_index_free(jx_index *index) {
    if (index != NULL) jx_index_free_non_null(index);
}

/* A shelf: a place for one index, on which many threads look things up at once. One of them puts an index there, at any time. From
 * then on each finds and reads rows in that index, and never another one, or none; until it sees it there it gets JX_NO_INDEX.
 * No call waits for another.
 *
 * The struct is a handle of a shelf, which the library alone writes, and each thread has one of its own: jx_shelf_share makes
 * another one of the same shelf. Set it to {0}, which holds none, before its first call. Free each once. It may be moved, also to
 * another thread. Do not use a copy of it after a call on another copy. The shelf and the index on it are freed with the last
 * handle; until then the text of the index must stay as it is.
 *
 * Null pointers change nothing, and the status is JX_NO_SHELF where `shelf` is null, else JX_NULL_POINTER. Bytes of the size 0
 * may be null. */
typedef struct jx_shelf {
    void *inside;
} jx_shelf;

/* The bytes of a text. */
typedef struct jx_text {
    const uint8_t *bytes;
    size_t size;
} jx_text;

uint32_t jx_shelf_new_non_null(jx_shelf *shelf);
uint32_t jx_shelf_share_non_null(jx_shelf *shelf, jx_shelf *other);
uint32_t jx_shelf_put_non_null(jx_shelf *shelf, jx_index *index);
uint32_t jx_shelf_text_non_null(jx_shelf *shelf, jx_text *text);
uint32_t jx_shelf_find_non_null(jx_shelf *shelf, const uint8_t *pointer, size_t pointer_size, jx_answer *answer);
uint32_t jx_shelf_row_non_null(jx_shelf *shelf, size_t number, jx_row *row);
void jx_shelf_free_non_null(jx_shelf *shelf);

/* Makes a shelf on which no index stands. A handle that the struct held is freed. Any status but JX_OK leaves the struct as it was.
 *
 * Allocates some 32 bytes, which jx_shelf_free frees. Returns JX_OK, JX_NO_MEMORY or JX_NO_SHELF. */
static inline uint32_t jx_shelf_new(jx_shelf *shelf) {
    if (shelf == NULL) return JX_NO_SHELF;
    return jx_shelf_new_non_null(shelf);
}

/* Makes another handle of the same shelf, for another thread. A handle that `other` held is freed. Any status but JX_OK leaves `other`
 * as it was.
 *
 * Allocates some 8 bytes, which jx_shelf_free frees. Returns JX_OK, JX_NO_MEMORY, JX_NO_SHELF or JX_NULL_POINTER. */
static inline uint32_t jx_shelf_share(jx_shelf *shelf, jx_shelf *other) {
    if (shelf == NULL) return JX_NO_SHELF;
    if (other == NULL) return JX_NULL_POINTER;
    return jx_shelf_share_non_null(shelf, other);
}

/* Puts the index that a struct holds on the shelf, if none stands there: the struct holds none then, and the index is the shelf's.
 * Where another one stands there, JX_TAKEN is returned, and the struct holds its index as before. Of several threads that put one
 * at once, one gets JX_OK.
 *
 * Allocates some 200 bytes. After JX_NO_MEMORY the struct holds no index, and none was put. Returns JX_OK, JX_TAKEN, JX_NO_MEMORY,
 * JX_NO_INDEX where the struct holds none, JX_NO_SHELF or JX_NULL_POINTER. */
static inline uint32_t jx_shelf_put(jx_shelf *shelf, jx_index *index) {
    if (shelf == NULL) return JX_NO_SHELF;
    if (index == NULL) return JX_NULL_POINTER;
    return jx_shelf_put_non_null(shelf, index);
}

/* Gives the text of the index on the shelf: the bytes that jx_index_new was passed.
 *
 * Allocates nothing. Returns JX_OK, JX_NO_INDEX where none stands there, JX_NO_SHELF or JX_NULL_POINTER. */
static inline uint32_t jx_shelf_text(jx_shelf *shelf, jx_text *text) {
    static const uint8_t none[1] = {0};
    jx_text told = {none, 0};
    uint32_t status;
    if (shelf == NULL) return JX_NO_SHELF;
    if (text == NULL) return JX_NULL_POINTER;
    status = jx_shelf_text_non_null(shelf, &told);
    if (status == JX_OK) *text = told;
    return status;
}

/* Finds the value that a JSON Pointer (RFC 6901) names, by the index on the shelf, as jx_index_find does.
 *
 * Allocates nothing. Returns JX_OK, JX_NO_INDEX where none stands there, JX_NO_SHELF or JX_NULL_POINTER. */
static inline uint32_t jx_shelf_find(jx_shelf *shelf, const uint8_t *pointer, size_t pointer_size, jx_answer *answer) {
    static const uint8_t none[1] = {0};
    if (shelf == NULL) return JX_NO_SHELF;
    if (answer == NULL || (pointer == NULL && pointer_size != 0)) return JX_NULL_POINTER;
    return jx_shelf_find_non_null(shelf, pointer == NULL ? none : pointer, pointer_size, answer);
}

/* Gives a value by the number of its row in the index on the shelf, as jx_index_row does.
 *
 * Allocates nothing. Returns JX_OK, JX_OUT_OF_BOUNDS if there are no more rows, JX_NO_INDEX where no index stands there,
 * JX_NO_SHELF or JX_NULL_POINTER. */
static inline uint32_t jx_shelf_row(jx_shelf *shelf, size_t number, jx_row *row) {
    if (shelf == NULL) return JX_NO_SHELF;
    if (row == NULL) return JX_NULL_POINTER;
    return jx_shelf_row_non_null(shelf, number, row);
}

/* Frees the handle, if there is one, and sets the struct to {0}. So a second call on the same struct does nothing, nor does one with
 * a null pointer. */
static inline void jx_shelf_free(jx_shelf *shelf) {
    if (shelf != NULL) jx_shelf_free_non_null(shelf);
}

/* The index of a text that comes slice by slice, to be saved beside it: 0.075 % of its size with chunks of 32 KiB. docs/FORMAT.md
 * says what its bytes are; they depend on the text, the settings and the size of a chunk alone.
 *
 * The struct is a handle, which the library alone writes. Set it to {0}, which is empty, before its first call. Free it once.
 * It may be moved, also to another thread. Do not use a copy of it after a call on another copy.
 *
 * Null pointers change nothing, and the status is JX_NO_SAVE where `save` is null, else JX_NULL_POINTER. Settings may be null, and
 * so may bytes of the size 0, and a buffer without room. */
typedef struct jx_save {
    void *inside;
} jx_save;

/* The size of a chunk that the program jx takes. It changes no answer. */
enum { JX_CHUNK_DEFAULT = 32768 };

uint32_t jx_save_new_non_null(const jx_settings *settings, size_t chunk, jx_save *save);
uint32_t jx_save_new_with_names_non_null(const jx_settings *settings, size_t chunk, jx_save *save);
uint32_t jx_save_feed_non_null(jx_save *save, const uint8_t *bytes, size_t size);
uint32_t jx_save_end_non_null(jx_save *save, size_t *index_size, jx_verdict *verdict);
uint32_t jx_save_take_non_null(jx_save *save, uint8_t *index, size_t room, size_t *index_size);
void jx_save_free_non_null(jx_save *save);

/* Begins a text by settings, for an index of chunks of `chunk` bytes: a power of two from 64 to 1,048,576. A text that the struct
 * held is freed. Any status but JX_OK leaves the struct as it was. It keeps no names, so it refuses JX_UNIQUE_NAMES.
 *
 * Allocates some 200 bytes, which jx_save_free frees. Returns JX_OK, JX_NO_MEMORY, JX_DEPTH_TOO_GREAT, JX_UNKNOWN_FLAG,
 * JX_NO_UNIQUE_NAMES, JX_NOT_A_CHUNK or JX_NO_SAVE. */
static inline uint32_t jx_save_new(const jx_settings *settings, size_t chunk, jx_save *save) {
    if (save == NULL) return JX_NO_SAVE;
    return jx_save_new_non_null(jx_settings_or_default(settings), chunk, save);
}

/* The same, with tables of the text's names after the index. By these a look-up needs only the chunks of an object that may have
 * the name. Without them it needs all chunks of the object. The answers are the same. The calls below speak of the index and mean
 * the tables too. A name takes at most four bytes of them. For 64 chunks with more than 4 * chunk names no table is kept, so a
 * look-up there reads them as without.
 *
 * Allocates some 300 bytes, which jx_save_free frees. Returns what jx_save_new returns. */
static inline uint32_t jx_save_new_with_names(const jx_settings *settings, size_t chunk, jx_save *save) {
    if (save == NULL) return JX_NO_SAVE;
    return jx_save_new_with_names_non_null(jx_settings_or_default(settings), chunk, save);
}

/* Feeds the next bytes of the text. A slice may have any size, including 0, and may end anywhere: the index is the same for all
 * slices. Bytes after a fault are not looked at.
 *
 * Allocates 32 bytes or some more for each chunk, and keeps less than one chunk of the text. With tables it allocates 8 bytes or
 * some more for each name too, and keeps a name that a chunk cuts. After JX_NO_MEMORY, also for 2^64 bytes or more in all, the
 * struct is empty. Returns JX_OK, JX_NO_MEMORY, JX_NOT_BEGUN where the text has ended, JX_NO_SAVE or JX_NULL_POINTER. */
static inline uint32_t jx_save_feed(jx_save *save, const uint8_t *bytes, size_t size) {
    static const uint8_t none[1] = {0};
    if (save == NULL) return JX_NO_SAVE;
    if (bytes == NULL && size != 0) return JX_NULL_POINTER;
    return jx_save_feed_non_null(save, bytes == NULL ? none : bytes, size);
}

/* Ends the text: writes the verdict on all bytes that were fed, that of jx_check, and how many bytes the index has. Where the text
 * is accepted, they wait in the struct until it is freed: jx_save_take copies them. Else the struct is empty, and the size
 * is 0.
 *
 * Allocates memory in proportion to the index. After JX_NO_MEMORY the struct is empty. Returns JX_OK, JX_NO_MEMORY,
 * JX_NOT_BEGUN where the text has ended before, JX_NO_SAVE or JX_NULL_POINTER. */
static inline uint32_t jx_save_end(jx_save *save, size_t *index_size, jx_verdict *verdict) {
    if (save == NULL) return JX_NO_SAVE;
    if (index_size == NULL || verdict == NULL) return JX_NULL_POINTER;
    return jx_save_end_non_null(save, index_size, verdict);
}

/* Copies the bytes of the index to `index`, once the text has ended, and writes their size to `index_size`. More than `room` bytes
 * are not written, and JX_NO_ROOM is returned. No byte of `index` after them is changed.
 *
 * Allocates nothing. Returns JX_OK, JX_NO_ROOM, JX_NOT_BEGUN where the text has not ended, JX_NO_SAVE or JX_NULL_POINTER. */
static inline uint32_t jx_save_take(jx_save *save, uint8_t *index, size_t room, size_t *index_size) {
    uint8_t none[1] = {0};
    if (save == NULL) return JX_NO_SAVE;
    if (index_size == NULL || (index == NULL && room != 0)) return JX_NULL_POINTER;
    return jx_save_take_non_null(save, index == NULL ? none : index, room, index_size);
}

/* Frees what the struct holds, if it holds something, and sets it to {0}. So a second call on the same struct does nothing, nor
 * does one with a null pointer. */
static inline void jx_save_free(jx_save *save) {
    if (save != NULL) jx_save_free_non_null(save);
}

/* A saved index of a text: pointers into the text, and parts of its containers, from a few chunks of it. The library reads no file.
 * It asks for the bytes of the text that it needs, and the caller gives them, from a file, a map or a request to a server.
 *
 * An answer is RFC 6901's on the text that was indexed, unless a chunk that was given has the kept digest and other bytes. A
 * changed chunk is reported when it is given. Chunks that are not needed are not looked at. A digest finds change, not forgery:
 * of a made-up index answers are of no use, but all calls are safe and end.
 *
 * One look-up of pointers or one split at a time goes on by an index. The next one that begins takes its place.
 *
 * The struct is a handle, which the library alone writes. Set it to {0}, which holds no index, before its first call. Free it
 * once. It may be moved, also to another thread. Do not use a copy of it after a call on another copy.
 *
 * Null pointers change nothing, and the status is JX_NO_SAVED where `saved` is null, else JX_NULL_POINTER. Bytes of the size 0 may
 * be null, and so may a list or a buffer without room. */
typedef struct jx_saved {
    void *inside;
} jx_saved;

/* What a saved index says of its text. */
typedef struct jx_saved_text {
    size_t size;    /* of the text, in bytes */
    size_t chunk;   /* how many bytes each chunk has, but for the last one */
    uint32_t depth; /* the settings by which the text was accepted */
    uint32_t flags;
} jx_saved_text;

/* Whole children of a container, one after another, and what stands between them. With brackets around it, it is a JSON text. */
typedef struct jx_part {
    jx_span span;  /* from after the comma or bracket before its first child, up to the one after its last */
    size_t number; /* which part of the container's bytes it is, from 0 */
    size_t first;  /* its first child, counted from 0 in the container */
    size_t end;    /* the child after its last one */
} jx_part;

/* Into at most so many parts a container is split. */
enum { JX_PARTS_MAX = 65536 };

uint32_t jx_saved_open_non_null(const uint8_t *index, size_t index_size, size_t text_size, jx_saved *saved);
uint32_t jx_saved_about_non_null(jx_saved *saved, jx_saved_text *text);
uint32_t jx_saved_seek_non_null(jx_saved *saved, const jx_pointer *pointers, size_t count);
uint32_t jx_saved_split_non_null(jx_saved *saved, const jx_span *container, size_t parts);
uint32_t jx_saved_needs_non_null(jx_saved *saved, jx_span *need);
uint32_t jx_saved_give_non_null(jx_saved *saved, const uint8_t *bytes, size_t size);
uint32_t jx_saved_answers_non_null(jx_saved *saved, jx_answer *answers, size_t room);
uint32_t jx_saved_parts_non_null(jx_saved *saved, jx_part *parts, size_t room, size_t *count);
uint32_t jx_saved_chunk_non_null(jx_saved *saved, size_t at, jx_span *chunk);
uint32_t jx_saved_check_non_null(jx_saved *saved, size_t at, const uint8_t *bytes, size_t size);
void jx_saved_free_non_null(jx_saved *saved);

/* Opens a saved index by its bytes, of a text of `text_size` bytes. It keeps no pointer to the bytes, and looks at them before it
 * uses them: any bytes may be passed. An index that the struct held is freed. Any status but JX_OK leaves the struct as it was.
 * Where tables of names follow the index, look-ups go by them.
 *
 * Allocates memory in proportion to the index, which jx_saved_free frees. Returns JX_OK, JX_NO_MEMORY, JX_NOT_SAVED,
 * JX_OTHER_VERSION, JX_CUT_SHORT, JX_DAMAGED, JX_MALFORMED, JX_MORE_BYTES, JX_OTHER_SIZE, JX_NO_SAVED or JX_NULL_POINTER. */
static inline uint32_t jx_saved_open(const uint8_t *index, size_t index_size, size_t text_size, jx_saved *saved) {
    static const uint8_t none[1] = {0};
    if (saved == NULL) return JX_NO_SAVED;
    if (index == NULL && index_size != 0) return JX_NULL_POINTER;
    return jx_saved_open_non_null(index == NULL ? none : index, index_size, text_size, saved);
}

/* Gives what the index says of its text.
 *
 * Allocates nothing. Returns JX_OK, JX_NO_SAVED or JX_NULL_POINTER. */
static inline uint32_t jx_saved_about(jx_saved *saved, jx_saved_text *text) {
    if (saved == NULL) return JX_NO_SAVED;
    if (text == NULL) return JX_NULL_POINTER;
    return jx_saved_about_non_null(saved, text);
}

/* Begins a look-up of pointers (RFC 6901). The library keeps pointers to the list and to the bytes of each pointer. They must stay
 * as they are until the look-up ends, another look-up or a split begins, or the index is freed.
 *
 * Allocates memory in proportion to the pointers, which the end of the look-up frees. After JX_NO_MEMORY what went on goes on.
 * Returns JX_OK, JX_NO_MEMORY, JX_NO_SAVED or JX_NULL_POINTER. */
static inline uint32_t jx_saved_seek(jx_saved *saved, const jx_pointer *pointers, size_t count) {
    static const uint8_t empty[1] = {0};
    static const jx_pointer none[1] = {{empty, 0}};
    if (saved == NULL) return JX_NO_SAVED;
    if (pointers == NULL && count != 0) return JX_NULL_POINTER;
    return jx_saved_seek_non_null(saved, pointers == NULL ? none : pointers, count);
}

/* Begins a split of an array or an object into `parts` parts, from 1 to JX_PARTS_MAX, by its span as a look-up gave it. Of another
 * span the parts are of no use. Let c be the offset of the comma before a child of the container a..b, or a for the first child.
 * Then the child is in part (c - a) * parts / (b - a), without the remainder. So the parts are the text's, whatever the size of a
 * chunk.
 *
 * Allocates nothing. Returns JX_OK, JX_OUT_OF_BOUNDS for a span that is empty or ends after the text, or no such number of parts,
 * JX_NO_SAVED or JX_NULL_POINTER. */
static inline uint32_t jx_saved_split(jx_saved *saved, const jx_span *container, size_t parts) {
    if (saved == NULL) return JX_NO_SAVED;
    if (container == NULL) return JX_NULL_POINTER;
    return jx_saved_split_non_null(saved, container, parts);
}

/* Gives which bytes of the text are needed next: one chunk. Start and end are 0 where no more are needed, or nothing goes on.
 * Each chunk comes after those before it.
 *
 * Allocates nothing. Returns JX_OK, JX_NO_SAVED or JX_NULL_POINTER. */
static inline uint32_t jx_saved_needs(jx_saved *saved, jx_span *need) {
    if (saved == NULL) return JX_NO_SAVED;
    if (need == NULL) return JX_NULL_POINTER;
    return jx_saved_needs_non_null(saved, need);
}

/* Gives the bytes that are needed, all of them. Where they are not those of the text that was indexed, JX_CHANGED is returned, and
 * other bytes may be given. After JX_DAMAGED and JX_NO_MEMORY nothing goes on any more. Where none are needed, nothing is done.
 *
 * Allocates memory for how deep the text nests where pointers lead, for a name that a chunk cuts, and for the parts. With tables
 * it allocates four bytes or some more for each token of the pointers, and frees them. Returns JX_OK, JX_CHANGED, JX_DAMAGED,
 * JX_NO_MEMORY, JX_NOT_BEGUN where nothing goes on, JX_NO_SAVED or JX_NULL_POINTER. */
static inline uint32_t jx_saved_give(jx_saved *saved, const uint8_t *bytes, size_t size) {
    static const uint8_t none[1] = {0};
    if (saved == NULL) return JX_NO_SAVED;
    if (bytes == NULL && size != 0) return JX_NULL_POINTER;
    return jx_saved_give_non_null(saved, bytes == NULL ? none : bytes, size);
}

/* Ends the look-up: writes what each pointer names in the text that was indexed, as jx_at does, in the order of the pointers.
 * Writes as many answers as fit, and leaves the rest of `answers` unchanged. Names may repeat, whatever settings the index has.
 *
 * Allocates memory in proportion to the pointers and frees it. Returns JX_OK, JX_MORE_NEEDED, JX_DAMAGED, JX_NO_MEMORY,
 * JX_NOT_BEGUN where no look-up goes on, JX_NO_SAVED or JX_NULL_POINTER. */
static inline uint32_t jx_saved_answers(jx_saved *saved, jx_answer *answers, size_t room) {
    jx_answer none[1];
    if (saved == NULL) return JX_NO_SAVED;
    if (answers == NULL && room != 0) return JX_NULL_POINTER;
    return jx_saved_answers_non_null(saved, answers == NULL ? none : answers, room);
}

/* Ends the split: writes the parts that have a child, in order, as many as fit, and leaves the rest of `parts` unchanged. Writes how
 * many there are to `count`: none for an empty container, and at most as many as were asked for.
 *
 * Allocates nothing. Returns JX_OK, JX_MORE_NEEDED, JX_DAMAGED, JX_NO_MEMORY where it was out of memory before, JX_NOT_BEGUN
 * where no split goes on, JX_NO_SAVED or JX_NULL_POINTER. */
static inline uint32_t jx_saved_parts(jx_saved *saved, jx_part *parts, size_t room, size_t *count) {
    jx_part none[1];
    if (saved == NULL) return JX_NO_SAVED;
    if (count == NULL || (parts == NULL && room != 0)) return JX_NULL_POINTER;
    return jx_saved_parts_non_null(saved, parts == NULL ? none : parts, room, count);
}

/* Writes the span of the chunk in whose place an offset of the text falls. The last chunk may end before its place does.
 *
 * Allocates nothing. Returns JX_OK, JX_OUT_OF_BOUNDS after the place of the last chunk, JX_NO_SAVED or JX_NULL_POINTER. */
static inline uint32_t jx_saved_chunk(jx_saved *saved, size_t at, jx_span *chunk) {
    if (saved == NULL) return JX_NO_SAVED;
    if (chunk == NULL) return JX_NULL_POINTER;
    return jx_saved_chunk_non_null(saved, at, chunk);
}

/* Checks whether bytes are those of the chunk that has the byte at an offset, as far as their digest shows. So a value that was found
 * is read as it was indexed: check the chunks in which it stands.
 *
 * Allocates nothing. Returns JX_OK, JX_CHANGED, JX_OUT_OF_BOUNDS as of jx_saved_chunk, JX_NO_SAVED or JX_NULL_POINTER. */
static inline uint32_t jx_saved_check(jx_saved *saved, size_t at, const uint8_t *bytes, size_t size) {
    static const uint8_t none[1] = {0};
    if (saved == NULL) return JX_NO_SAVED;
    if (bytes == NULL && size != 0) return JX_NULL_POINTER;
    return jx_saved_check_non_null(saved, at, bytes == NULL ? none : bytes, size);
}

/* Frees the index and what goes on by it, if there is one, and sets the struct to {0}. So a second call on the same struct does
 * nothing, nor does one with a null pointer. */
static inline void jx_saved_free(jx_saved *saved) {
    if (saved != NULL) jx_saved_free_non_null(saved);
}

/* Reads `size` bytes of the text from the offset `from` on, all of them. Returns 0, or anything else where that fails. */
typedef int (*jx_read_at)(void *context, size_t from, uint8_t *bytes, size_t size);

/* Looks pointers up in one call: begins a look-up, reads each chunk that it needs into `buffer` by `read_at`, and ends it. `room` is
 * at least the size of a chunk, which jx_saved_about gives. `read_at` is called by this function, not by the library.
 *
 * Returns what jx_saved_seek, jx_saved_give and jx_saved_answers return; JX_NO_ROOM for a buffer that is smaller than a chunk, or
 * JX_READ_FAILED. */
static inline uint32_t jx_saved_find(jx_saved *saved, jx_read_at read_at, void *context, uint8_t *buffer, size_t room,
                                     const jx_pointer *pointers, size_t count, jx_answer *answers) {
    jx_span need = {0, 0};
    uint32_t status;
    if (saved == NULL) return JX_NO_SAVED;
    if (read_at == NULL || buffer == NULL || (answers == NULL && count != 0)) return JX_NULL_POINTER;
    status = jx_saved_seek(saved, pointers, count);
    while (status == JX_OK && (status = jx_saved_needs(saved, &need)) == JX_OK && need.start != need.end) {
        if (need.end - need.start > room) return JX_NO_ROOM;
        if (read_at(context, need.start, buffer, need.end - need.start) != 0) return JX_READ_FAILED;
        status = jx_saved_give(saved, buffer, need.end - need.start);
    }
    return status == JX_OK ? jx_saved_answers(saved, answers, count) : status;
}

/* Kinds of verdicts on elements of sequences, in addition to those on texts. */
enum {
    JX_MAY_BE_CUT = 4, /* a number, true, false or null with nothing after it may be the beginning of a longer text (RFC
                          7464, section 2.4) */
    JX_UNMARKED = 5    /* the element comes before the first record separator */
};

/* An element of a JSON text sequence. */
typedef struct jx_element {
    jx_span span;       /* from after its record separator up to the next one or the end */
    jx_verdict verdict; /* JX_ACCEPTED .. JX_REPEATED_NAME; offsets count from the sequence's start */
} jx_element;

uint32_t jx_elements_non_null(const uint8_t *sequence, size_t size, const jx_settings *settings, jx_element *elements,
                              size_t room, size_t *count);

/* Lists all elements of a JSON text sequence (RFC 7464, section 2.1) in order, each with its verdict. Writes as many as fit
 * to `elements` and leaves the rest of it unchanged; writes how many there are to `count`. A record separator is the byte
 * 1E. There is no element between two in a row, nor after one at the end, so there is at most one more element than record
 * separators. A first call with room 0 says how many; `elements` must not be null in either. JX_IGNORE_MARK skips a byte
 * order mark that is alone before the first record separator; in an element one is refused. JX_UNIQUE_NAMES refuses an
 * element at its first duplicate name.
 *
 * Allocates memory in proportion to the count of elements and to the sizes of the first and the last one, and frees it. With
 * JX_UNIQUE_NAMES it is in proportion to the names of the objects that are open at once, too. Returns JX_OK, JX_NO_MEMORY,
 * JX_DEPTH_TOO_GREAT or JX_UNKNOWN_FLAG. */
static inline uint32_t jx_elements(const uint8_t *sequence, size_t size, const jx_settings *settings, jx_element *elements,
                                   size_t room, size_t *count) {
    return jx_elements_non_null(sequence, size, jx_settings_or_default(settings), elements, room, count);
}

/* JSON Lines, also called NDJSON: bytes that line feeds cut into lines, each of which is to be a JSON text. They come slice by
 * slice, as they are read, and lines that are not valid JSON wait in the library until they are taken.
 *
 * A line is the bytes between two line feeds, the byte 0A, or before the first one. A carriage return at its end is white space
 * of the line (RFC 8259, section 2). The bytes after the last line feed are a line, too, unless there are none.
 *
 * The struct is a handle, which the library alone writes. Set it to {0}, which holds no reader, before its first call. Free
 * it once. It may be moved, also to another thread. Do not use a copy of it after a call on another copy.
 *
 * Null pointers change nothing, and the status is JX_NO_LINES where `lines` is null, else JX_NULL_POINTER. Settings may be
 * null, and so may bytes of the size 0, and a buffer without room. */
typedef struct jx_lines {
    void *inside;
} jx_lines;

/* The kind of a verdict on a line that has no byte, or white space alone (RFC 8259, section 2). Lines have JX_MAY_BE_CUT, too: for
 * a number, true, false or null that the input ends with, without a line feed or white space after it. */
enum { JX_BLANK = 7 };

/* A line. */
typedef struct jx_line {
    size_t number;      /* its place among the lines, from 1; 0 where there is none */
    jx_span span;       /* of its bytes, without the line feed, from the input's start */
    jx_verdict verdict; /* JX_ACCEPTED .. JX_TOO_DEEP, JX_MAY_BE_CUT or JX_BLANK; offsets count from the input's start */
} jx_line;

/* How many lines there are. */
typedef struct jx_line_counts {
    size_t accepted; /* those that are texts */
    size_t refused;  /* those that are not valid JSON, and those that may be cut */
    size_t blank;    /* those that have no byte, or white space alone */
} jx_line_counts;

uint32_t jx_lines_new_non_null(const jx_settings *settings, jx_lines *lines);
uint32_t jx_lines_feed_non_null(jx_lines *lines, const uint8_t *bytes, size_t size);
uint32_t jx_lines_take_non_null(jx_lines *lines, jx_line *bad, size_t room, size_t *count);
uint32_t jx_lines_end_non_null(jx_lines *lines, jx_line *last, jx_line_counts *counts);
void jx_lines_free_non_null(jx_lines *lines);

/* Begins an input. A reader that the struct held is freed. Any status but JX_OK leaves the struct as it was. JX_IGNORE_MARK
 * takes a byte order mark off the input's front, and off no other line. A reader of lines keeps no names, so it refuses
 * JX_UNIQUE_NAMES.
 *
 * Allocates some 100 bytes, which jx_lines_free frees. Returns JX_OK, JX_NO_MEMORY, JX_DEPTH_TOO_GREAT, JX_UNKNOWN_FLAG,
 * JX_NO_UNIQUE_NAMES or JX_NO_LINES. */
static inline uint32_t jx_lines_new(const jx_settings *settings, jx_lines *lines) {
    if (lines == NULL) return JX_NO_LINES;
    return jx_lines_new_non_null(jx_settings_or_default(settings), lines);
}

/* Feeds the next bytes of the input. A slice may have any size, including 0, and may end anywhere, including inside a
 * character: what is taken at last is the same for all slices. Lines that end in the slice and are not valid JSON wait then.
 *
 * Allocates memory in proportion to the lines that wait and to how deep a line nests. It keeps no byte. After JX_NO_MEMORY
 * the struct holds no reader, and what waited is lost. Returns JX_OK, JX_NO_MEMORY, JX_TOO_MANY_BYTES for 2^64 bytes or more
 * in all, JX_NO_LINES or JX_NULL_POINTER. */
static inline uint32_t jx_lines_feed(jx_lines *lines, const uint8_t *bytes, size_t size) {
    static const uint8_t none[1] = {0};
    if (lines == NULL) return JX_NO_LINES;
    if (bytes == NULL && size != 0) return JX_NULL_POINTER;
    return jx_lines_feed_non_null(lines, bytes == NULL ? none : bytes, size);
}

/* Moves all lines that wait to `bad`, in order: those that have ended, are not valid JSON, and were not taken before. Writes how
 * many they are to `count`, and leaves the rest of `bad` unchanged. More than `room` lines are not moved, and JX_NO_ROOM is
 * returned: `count` says how much room a second call needs. At most one line waits for each byte that was fed since the last
 * call.
 *
 * Allocates nothing. Returns JX_OK, JX_NO_ROOM, JX_NO_LINES or JX_NULL_POINTER. */
static inline uint32_t jx_lines_take(jx_lines *lines, jx_line *bad, size_t room, size_t *count) {
    jx_line none[1];
    if (lines == NULL) return JX_NO_LINES;
    if (count == NULL || (bad == NULL && room != 0)) return JX_NULL_POINTER;
    return jx_lines_take_non_null(lines, bad == NULL ? none : bad, room, count);
}

/* Reports what is left if the input ends here. Writes the last line to `last`, if no line feed ends it and it is
 * refused; else `last` has the number 0. Writes to `counts` how many lines there are, with that one and those that wait, which a
 * call of jx_lines_take moves. More bytes may be fed after that.
 *
 * Allocates nothing. Returns JX_OK, JX_NO_LINES or JX_NULL_POINTER. */
static inline uint32_t jx_lines_end(jx_lines *lines, jx_line *last, jx_line_counts *counts) {
    if (lines == NULL) return JX_NO_LINES;
    if (last == NULL || counts == NULL) return JX_NULL_POINTER;
    return jx_lines_end_non_null(lines, last, counts);
}

/* Frees the reader, if there is one, and sets the struct to {0}. So a second call on the same struct does nothing, nor does
 * one with a null pointer. */
static inline void jx_lines_free(jx_lines *lines) {
    if (lines != NULL) jx_lines_free_non_null(lines);
}

/* A text that is edited, and the verdict on all of it after each edit (RFC 8259). An edit and its verdict read what is near
 * the edit, not the whole text.
 *
 * The struct is a handle, which the library alone writes. Set it to {0}, which holds no document, before its first call.
 * Free it once. It may be moved, also to another thread. Do not use a copy of it after a call on another copy.
 *
 * Null pointers change nothing, and the status is JX_NO_DOCUMENT where `document` is null, else JX_NULL_POINTER. Settings may
 * be null, and so may bytes of the size 0. */
typedef struct jx_document {
    void *inside;
} jx_document;

uint32_t jx_document_new_non_null(const uint8_t *text, size_t size, const jx_settings *settings, jx_document *document);
uint32_t jx_document_edit_non_null(jx_document *document, size_t start, size_t end, const uint8_t *replacement, size_t size);
uint32_t jx_document_verdict_non_null(jx_document *document, jx_verdict *verdict);
uint32_t jx_document_size_non_null(jx_document *document, size_t *size);
uint32_t jx_document_copy_non_null(jx_document *document, size_t start, uint8_t *bytes, size_t size);
void jx_document_free_non_null(jx_document *document);

/* Makes a document of a copy of the bytes. A document that the struct held is freed. Any status but JX_OK leaves the struct
 * as it was.
 *
 * Allocates memory in proportion to the text, which jx_document_free frees. Returns JX_OK, JX_NO_MEMORY, JX_DEPTH_TOO_GREAT,
 * JX_UNKNOWN_FLAG, JX_NO_UNIQUE_NAMES, JX_NO_DOCUMENT or JX_NULL_POINTER. */
static inline uint32_t jx_document_new(const uint8_t *text, size_t size, const jx_settings *settings, jx_document *document) {
    static const uint8_t none[1] = {0};
    if (document == NULL) return JX_NO_DOCUMENT;
    if (text == NULL && size != 0) return JX_NULL_POINTER;
    return jx_document_new_non_null(text == NULL ? none : text, size, jx_settings_or_default(settings), document);
}

/* Puts `size` other bytes in the place of those from `start` up to, but not including, `end`. Offsets count the bytes of an
 * ignored byte order mark. An edit may cut a character, an escape or a byte order mark. Any status but JX_OK leaves all bytes as
 * they were.
 *
 * Allocates memory in proportion to the replacement. Returns JX_OK, JX_NO_MEMORY, JX_OUT_OF_BOUNDS, JX_NO_DOCUMENT or
 * JX_NULL_POINTER. */
static inline uint32_t jx_document_edit(jx_document *document, size_t start, size_t end, const uint8_t *replacement, size_t size) {
    static const uint8_t none[1] = {0};
    if (document == NULL) return JX_NO_DOCUMENT;
    if (replacement == NULL && size != 0) return JX_NULL_POINTER;
    return jx_document_edit_non_null(document, start, end, replacement == NULL ? none : replacement, size);
}

/* Gives the verdict on all bytes, as one text: that of jx_check by the document's settings. Takes up what edits changed
 * since the last verdict, so there may be several edits before one.
 *
 * May allocate. After JX_NO_MEMORY the document keeps what was taken up so far, and the next verdict goes on from there;
 * jx_document_free frees it. Returns JX_OK, JX_NO_MEMORY, JX_NO_DOCUMENT or JX_NULL_POINTER. */
static inline uint32_t jx_document_verdict(jx_document *document, jx_verdict *verdict) {
    if (document == NULL) return JX_NO_DOCUMENT;
    if (verdict == NULL) return JX_NULL_POINTER;
    return jx_document_verdict_non_null(document, verdict);
}

/* Gives how many bytes there are.
 *
 * Allocates nothing. Returns JX_OK, JX_NO_DOCUMENT or JX_NULL_POINTER. */
static inline uint32_t jx_document_size(jx_document *document, size_t *size) {
    if (document == NULL) return JX_NO_DOCUMENT;
    if (size == NULL) return JX_NULL_POINTER;
    return jx_document_size_non_null(document, size);
}

/* Copies the `size` bytes from `start` on to `bytes`.
 *
 * Allocates as much as it copies and frees it. Returns JX_OK, JX_NO_MEMORY, JX_OUT_OF_BOUNDS, JX_NO_DOCUMENT or
 * JX_NULL_POINTER. */
static inline uint32_t jx_document_copy(jx_document *document, size_t start, uint8_t *bytes, size_t size) {
    uint8_t none[1] = {0};
    if (document == NULL) return JX_NO_DOCUMENT;
    if (bytes == NULL && size != 0) return JX_NULL_POINTER;
    return jx_document_copy_non_null(document, start, bytes == NULL ? none : bytes, size);
}

/* Frees the document, if there is one, and sets the struct to {0}. So a second call on the same struct does nothing, nor does
 * one with a null pointer. */
static inline void jx_document_free(jx_document *document) {
    if (document != NULL) jx_document_free_non_null(document);
}

/* A text in parts, on many machines: each part is read by itself and gives a run, its result as bytes to be kept or sent. Runs
 * of neighbors are joined, in any order of joins, up to the run of the whole text, which has the verdict on it. A run has
 * a few KB for most parts. Its bytes are the same on every machine; docs/FORMAT.md says what they are.
 *
 * The bytes of a run are looked at before they are used: any bytes may be passed. A digest finds runs that were damaged. It
 * is no signature: sign runs where other people may write them. */

/* In place of an offset: where the part stands is not told. Then runs are joined in the order in which they are passed. */
#define JX_NO_FROM UINT64_MAX

/* At most so many bytes has a run of this depth. */
#define JX_RUN_MOST(depth) ((size_t)4096 + (size_t)1120 * (depth))

/* Reads a part of a text, which may be cut at any byte, also inside a character or a number, and writes its run to `run`.
 * `from` is the offset of its first byte in the text, or JX_NO_FROM. Writes the run's size to `run_size`. A run of more
 * than `room` bytes is not written, and JX_NO_ROOM is returned: its size says how much room a second call needs. A byte
 * order mark is not ignored: leave it out of the first part, and let `from` count it.
 *
 * Allocates memory and frees it: some KB, and up to 720 bytes for each closing bracket whose container an earlier part opens. A
 * part has at most `depth` of these, so 48 MB with JX_DEPTH_MAX. Returns JX_OK, JX_NO_ROOM, JX_NO_MEMORY, JX_DEPTH_TOO_GREAT, or
 * JX_TOO_MANY_BYTES for a part that would end at 2^64 or after it. */
uint32_t jx_run_of(const uint8_t *part, size_t size, uint64_t from, uint32_t depth, uint8_t *run, size_t room, size_t *run_size);

/* Writes the run of both parts' bytes, those of `right` after those of `left`, which must end where `right` begins. Joins
 * may be made in any order: (a b) c has the verdict of a (b c). `run` and `run_size` as with jx_run_of.
 *
 * Allocates memory in proportion to the runs, the joined one too, and frees it. Returns JX_OK, JX_NO_ROOM, JX_NO_MEMORY,
 * JX_NOT_A_RUN, JX_OTHER_DEPTH, JX_NOT_NEIGHBOURS, also where one run has its offset and the other has none, or
 * JX_TOO_MANY_BYTES. */
uint32_t jx_run_join(const uint8_t *left, size_t left_size, const uint8_t *right, size_t right_size, uint8_t *run, size_t room,
                     size_t *run_size);

/* Gives the verdict on the run's bytes as a whole text, that of jx_check by the run's depth and no flag. They must be those from
 * `start` up to, but not including, `end`: so a lost part is reported, and no verdict is given on less than the text.
 * Offsets count from the text's start. A run that was made with JX_NO_FROM starts at 0.
 *
 * Allocates memory in proportion to the run and frees it. Returns JX_OK, JX_NO_MEMORY, JX_NOT_A_RUN or JX_NOT_NEIGHBOURS. */
uint32_t jx_run_verdict(const uint8_t *run, size_t run_size, size_t start, size_t end, jx_verdict *verdict);

/* Returns the version: 10,000 times its first number, plus 100 times the second, plus the third. 300 is 0.3.0. */
uint32_t jx_version(void);

#ifdef __cplusplus
}
#endif

#endif
