#include "shapes.h"
#include "../harness.h"

#include <stdio.h>
#include <string.h>

char *shape_text;
size_t shape_size;

/* Longer than any part that is put at once, and than what closes a text. */
enum { MARGIN = 1 << 10, STEEP = 400, DEEP = 30000 };

void shape_room(size_t most) { shape_text = kept(most + ((size_t)1 << 20)); }

static void put(const char *part) {
    const size_t size = strlen(part);
    memcpy(shape_text + shape_size, part, size);
    shape_size += size;
}

static void put_number(const char *form, size_t number) { shape_size += (size_t)sprintf(shape_text + shape_size, form, number); }

static void list(size_t goal, const char *opens, const char *form, const char *closes) {
    shape_size = 0;
    put(opens);
    for (size_t k = 0; shape_size + MARGIN < goal; k++) {
        if (k > 0) put(",");
        put_number(form, k);
    }
    put(closes);
}

static void repeat(size_t goal, const char *opens, const char *part, const char *last) {
    shape_size = 0;
    put(opens);
    while (shape_size + MARGIN < goal) put(part);
    put(last);
}

static void nest(size_t goal, size_t depth, const char *opens, const char *closes) {
    shape_size = 0;
    put("[");
    while (shape_size + depth * (strlen(opens) + strlen(closes)) + MARGIN < goal || shape_size == 1) {
        for (size_t k = 0; k < depth; k++) put(opens);
        put("0");
        for (size_t k = 0; k < depth; k++) put(closes);
        put(",");
    }
    put("0]");
}

static void numbers(size_t goal) { list(goal, "[", "%zu", "]"); }
static void short_names(size_t goal) { list(goal, "{", "\"%zu\":0", "}"); }
static void long_names(size_t goal) { list(goal, "{", "\"the same first forty characters of names %zu\":0", "}"); }
static void escaped_names(size_t goal) { list(goal, "{", "\"\\u0061\\u0062\\u0063\\u0064\\u0065%zu\":0", "}"); }
static void few_names(size_t goal) { list(goal, "[", "{\"a\":1,\"b\":[%zu],\"c\":{\"d\":null}}", "]"); }
static void empty_ones(size_t goal) { list(goal, "[", "[],{}", "]"); }
static void objects_by_name(size_t goal) { list(goal, "{", "\"%zu\":{\"a\":{\"b\":{\"c\":0}}}", "}"); }
static void one_string(size_t goal) { repeat(goal, "\"", "\\ud83d\\ude00\xF0\x9F\x98\x80\\\\\xC3\xA9", "\""); }
static void blanks_alone(size_t goal) { repeat(goal, "", " \n", "1"); }
static void separators(size_t goal) { repeat(goal, "", "\x1E{\"a\":1}\n", ""); }
static void equal_names(size_t goal) { repeat(goal, "{", "\"name\":0,", "\"name\":0}"); }
static void deep(size_t goal) { nest(goal, DEEP, "[{\"a\":", "}]"); }
static void slopes(size_t goal) { nest(goal, STEEP, "[", "]"); }

static void falling_names(size_t goal) {
    shape_size = 0;
    put("{");
    for (size_t k = 99999999; shape_size + MARGIN < goal; k--) put_number("\"%zu\":0,", k);
    put("\"x\":0}");
}

const shape shapes[] = {
    {"numbers", numbers},       {"short names", short_names},   {"long names", long_names},           {"escaped names", escaped_names}, {"equal names", equal_names},
    {"falling names", falling_names}, {"few names", few_names}, {"objects by name", objects_by_name}, {"empty ones", empty_ones},       {"one string", one_string},
    {"blanks", blanks_alone},   {"deep", deep},                 {"slopes", slopes},                   {"separators", separators},
};
const size_t shape_count = sizeof shapes / sizeof shapes[0];
