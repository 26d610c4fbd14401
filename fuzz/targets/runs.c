#include "runs.h"

#include <stdlib.h>

static uint8_t *room_for_a_run(void) {
    static uint8_t *room;
    if (room == NULL) room = kept(JX_RUN_MOST(JX_DEPTH_MAX));
    room[0] = 0x5A;
    return room;
}

run run_from(const uint8_t *bytes, size_t size) { return (run){kept_copy(bytes, size), size, {0}}; }

static void is_told_without_room(input *in, const uint8_t *part, size_t size, uint64_t from, size_t wanted) {
    uint8_t *room = room_for_a_run();
    size_t needed = 0x5A;
    const uint32_t status = jx_run_of(part, size, from, in->settings.depth, room, choice_upto(in, wanted - 1), &needed);
    REQUIRE(status == JX_NO_ROOM && needed == wanted && room[0] == 0x5A, "no room for a run");
}

uint32_t run_of(input *in, const uint8_t *part, size_t size, uint64_t from, run *r) {
    uint8_t *room = room_for_a_run();
    uint32_t status;
    size_t told = 0x5A;
    const size_t most = JX_RUN_MOST(in->settings.depth);
    CALL(status, jx_run_of(part, size, from, in->settings.depth, room, most, &told), told == 0x5A && room[0] == 0x5A);
    if (status != JX_OK) return status;
    require_bounded(library_bytes(), size, 1024, "a run takes too much memory");
    REQUIRE(told <= most, "a run's size");
    *r = run_from(room, told);
    REQUIRE(record_read(r->bytes, r->size, &r->read), "a run is a record");
    REQUIRE(r->read.depth == in->settings.depth && r->read.length == size && r->read.has_from == (from != JX_NO_FROM), "a record's head");
    REQUIRE(from == JX_NO_FROM || r->read.from == from, "a record's offset");
    if (choice(in) % 4 == 0) is_told_without_room(in, part, size, from, told);
    return JX_OK;
}

uint32_t run_join(input *in, const run *left, const run *right, run *joined) {
    uint8_t *room = room_for_a_run();
    uint32_t status;
    size_t told = 0x5A;
    CALL(status, jx_run_join(left->bytes, left->size, right->bytes, right->size, room, JX_RUN_MOST(JX_DEPTH_MAX), &told),
         told == 0x5A && room[0] == 0x5A);
    /* The joined run may be several times as large as both: its forms stand once for each transition that leads to them. */
    require_bounded(library_bytes(), left->size + right->size + told, 24, "a join takes too much memory");
    if (status != JX_OK) return status;
    *joined = run_from(room, told);
    REQUIRE(record_read(joined->bytes, joined->size, &joined->read), "a joined run is a record");
    REQUIRE(told <= JX_RUN_MOST(joined->read.depth), "a joined run's size");
    REQUIRE(joined->read.length == left->read.length + right->read.length, "a joined run's length");
    return JX_OK;
}

jx_verdict runs_follow(const run *runs, size_t count, uint64_t start) {
    static record_place place;
    record_start(&place, start);
    for (size_t k = 0; k < count; k++) {
        const jx_verdict verdict = record_follow(&runs[k].read, &place);
        if (verdict.kind != JX_ACCEPTED) return verdict;
    }
    return record_end(&place);
}

static uint64_t start_of(const record *r) { return r->has_from ? r->from : 0; }

static int judge_one(input *in, run *r) {
    uint32_t status;
    jx_verdict told = no_verdict;
    const int is_record = record_read(r->bytes, r->size, &r->read);
    const uint64_t start = is_record ? start_of(&r->read) : 0;
    const uint64_t end = is_record ? start + r->read.length : choice(in);
    CALL(status, jx_run_verdict(r->bytes, r->size, start, end, &told), is_no_verdict(&told));
    require_bounded(library_bytes(), r->size, 24, "a run's verdict takes too much memory");
    if (!is_record) {
        REQUIRE(status == JX_NOT_A_RUN && is_no_verdict(&told), "bytes that are no run");
        return 0;
    }
    const jx_verdict wanted = runs_follow(r, 1, start);
    REQUIRE(status == JX_OK, "a record is a run");
    REQUIRE(same_verdict(&told, &wanted), "the verdict of a record");
    return 1;
}

/* Whether a join must be refused, and by one of the statuses that say why. */
static int is_refused_rightly(const record *left, const record *right, uint32_t status) {
    const int is_deeper = left->depth != right->depth;
    const int is_apart = left->has_from != right->has_from || (left->has_from && left->from + left->length != right->from);
    const int is_far = !left->has_from && right->length > UINT64_MAX - left->length;
    switch (status) {
    case JX_OTHER_DEPTH: return is_deeper;
    case JX_NOT_NEIGHBOURS: return is_apart;
    case JX_TOO_MANY_BYTES: return is_far;
    default: return status == JX_OK && !is_deeper && !is_apart && !is_far;
    }
}

void judge_runs(input *in, run *left, run *right) {
    run joined;
    const int is_left = judge_one(in, left), is_right = judge_one(in, right);
    const uint32_t status = run_join(in, left, right, &joined);
    if (!is_left || !is_right) {
        REQUIRE(status == JX_NOT_A_RUN, "a join of bytes that are no run");
        return;
    }
    REQUIRE(is_refused_rightly(&left->read, &right->read, status), "the status of a join");
    if (status != JX_OK) return;
    const run two[2] = {*left, *right};
    const uint64_t start = start_of(&left->read);
    const jx_verdict wanted = runs_follow(two, 2, start), told = runs_follow(&joined, 1, start);
    REQUIRE(same_verdict(&told, &wanted), "a join of records, and one behind another");
    free(joined.bytes);
}
