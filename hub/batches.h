/* A trial's batch judged by its lengths and entered notice by notice, for tests. */
#ifndef HUB_BATCHES_H
#define HUB_BATCHES_H

#include <stddef.h>
#include <stdint.h>

/* 2 if no trial takes this count with buffers of these lengths, else 0. */
int64_t judge_batch(int64_t count, size_t notices_length, size_t answers_length);

/* What a trial counts. */
struct counted {
    int64_t most;    /* records of a point, before the first notice or after any */
    int64_t removed; /* records by all notices */
};

/* Enters so many notices into this sound register and writes the answers that they get. */
struct counted enter_batch(uint8_t *reg, const uint8_t *notices, uint8_t *answers, size_t count);

#endif
