/* The entry that libFuzzer calls with each input. What is wrong ends the program: a wrong answer, a request for memory that should not
 * be, memory that is not given back, more memory than the input justifies. */
#include "harness.h"
#include "statistics.h"
#include "targets/targets.h"

#include <stdio.h>
#include <stdlib.h>

int LLVMFuzzerTestOneInput(const uint8_t *data, size_t size);

static const struct {
    const char *name;
    void (*run)(input *in);
} targets[TARGETS] = {
    {"check", check_texts},           {"feed", feed_readers},        {"forged reader", feed_forged_readers}, {"rows", list_rows},
    {"pointers", look_up},            {"index", look_up_in_indexes}, {"elements", list_elements},            {"document", edit_documents},
    {"joins", join_runs},             {"forged runs", forge_runs},   {"any runs", take_any_runs},
    {"compact", compact_texts},       {"lines", feed_lines},         {"values", feed_values},
    {"saved", find_in_saved},         {"forged saved", open_forged_saved}, {"explain", explain_texts},
};

static const char *doing = "";

void wrong(const char *what, const char *file, int line) {
    fprintf(stderr, "fuzz: WRONG in %s: %s (%s:%d)\n", doing, what, file, line);
    abort();
}

int LLVMFuzzerTestOneInput(const uint8_t *data, size_t size) {
    input in;
    if (size < HEAD) return 0;
    const size_t target = input_of(&in, data, size);
    doing = targets[target].name;
    statistics_input_begins(target, doing, in.size);
    targets[target].run(&in);
    free(in.text);
    REQUIRE(library_blocks() == 0 && library_bytes() == 0, "memory is not given back");
    return 0;
}
