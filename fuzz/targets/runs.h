/* Runs, and what docs/FORMAT.md says of them. */
#ifndef RUNS_H
#define RUNS_H

#include "../readers/record.h"
#include "targets.h"

typedef struct run {
    uint8_t *bytes;
    size_t size;
    record read;
} run;

/* A run of a part of a text, which is held to be a record; or a status that says why there is none. */
uint32_t run_of(input *in, const uint8_t *part, size_t size, uint64_t from, run *r);

/* A run of any bytes. */
run run_from(const uint8_t *bytes, size_t size);

/* The joined run, which is held to be a record; or a status that says why there is none. */
uint32_t run_join(input *in, const run *left, const run *right, run *joined);

/* The verdict on what these runs are of, one behind another, by docs/FORMAT.md. */
jx_verdict runs_follow(const run *runs, size_t count, uint64_t start);

/* Holds calls on two runs of any bytes to what docs/FORMAT.md says of them. */
void judge_runs(input *in, run *left, run *right);

#endif
