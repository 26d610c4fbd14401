#include "targets.h"

#include <stdlib.h>

static jx_element wanted[MOST_TEXT / 2 + 2];

static int same_element(const jx_element *a, const jx_element *b) {
    return a->span.start == b->span.start && a->span.end == b->span.end && same_verdict(&a->verdict, &b->verdict);
}

static void list_in(input *in, size_t room, size_t most) {
    uint32_t status;
    size_t count = 0x5A;
    jx_element *elements = unwritten(room * sizeof *elements);
    CALL(status, jx_elements(in->text, in->size, &in->settings, elements, room, &count),
         count == 0x5A && is_unwritten(elements, room * sizeof *elements));
    REQUIRE(status == JX_OK && count == most, "the count of elements");
    require_bounded(library_bytes(), in->size, 640, "elements take too much memory");
    const size_t written = count < room ? count : room;
    for (size_t k = 0; k < written; k++) REQUIRE(same_element(&elements[k], &wanted[k]), "an element");
    REQUIRE(is_unwritten(elements + written, (room - written) * sizeof *elements), "what stands behind the elements");
    free(elements);
}

void list_elements(input *in) {
    const int has_separators = choice(in) % 2;
    for (size_t k = 0; k < in->size && has_separators; k++) {
        if (in->text[k] == '\n' || in->text[k] == ';') in->text[k] = 0x1E;
    }
    const size_t most = plain_elements(in->text, in->size, &in->settings, wanted, sizeof wanted / sizeof wanted[0]);
    list_in(in, 0, most);
    list_in(in, most + 1, most);
    list_in(in, choice_upto(in, most), most);
}
