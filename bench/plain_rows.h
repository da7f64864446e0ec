/* What the parts of the plain program share: ranges, and where a table has its rows. */
#ifndef BENCH_PLAIN_ROWS_H
#define BENCH_PLAIN_ROWS_H

#include "places.h"

#include <stdbool.h>

enum {
    LAST_DAY = 39999,
    ENERGY_MOST = 1000000,
    USERS = 16,
};

static const int64_t MIRN_MOST = 9999999999;

static inline bool within(int64_t x, int64_t least, int64_t most) {
    return least <= x && x <= most;
}

static inline bool is_day(int64_t x) {
    return within(x, 0, LAST_DAY);
}

static inline const int64_t *registrations(const int64_t *p) {
    return p + REGISTRATION_ROWS;
}

static inline const int64_t *registrations_end(const int64_t *p) {
    return p + REGISTRATION_ROWS + REGISTRATION_NUMBERS * p[REGISTRATION_COUNT];
}

static inline const int64_t *spans(const int64_t *p) {
    return p + SPAN_ROWS;
}

static inline const int64_t *spans_end(const int64_t *p) {
    return p + SPAN_ROWS + SPAN_NUMBERS * p[SPAN_COUNT];
}

static inline const int64_t *records(const int64_t *p) {
    return p + RECORD_ROWS;
}

static inline const int64_t *records_end(const int64_t *p) {
    return p + RECORD_ROWS + RECORD_NUMBERS * p[RECORD_COUNT];
}

/* Of a table whose edition is one. */
static inline const struct edition *edition_of(const int64_t *table) {
    return &editions[table[EDITION]];
}

/* From one point to the next. */
static inline size_t stride(const int64_t *table) {
    return edition_of(table)->point_numbers;
}

static inline const int64_t *points(const int64_t *table) {
    return table + HEADER_NUMBERS;
}

static inline const int64_t *points_end(const int64_t *table) {
    return table + point_place(edition_of(table), (size_t)table[POINT_COUNT]);
}

#endif
