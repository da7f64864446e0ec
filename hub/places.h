/* Where the register table has its numbers, and those of a trial, for tests. The library's own list
   is crates/places. */
#ifndef HUB_PLACES_H
#define HUB_PLACES_H

#include <stddef.h>
#include <stdint.h>

/* The same in both editions. */
enum {
    REGISTER_NUMBERS = 7688,
    REGISTRATIONS = 8,
    SPANS = 8,
    OPERATORS = 4,
    SHARES = 32, /* numbers of allocate's answer table; no edition has more points */
};

/* The header. */
enum {
    POINT_COUNT,
    NONDAILY,
    DAILY,
    EDITION,
    HEADER_SPARE,
    HEADER_NUMBERS = 8,
};

/* Numbers of a row. */
enum {
    REGISTRATION_NUMBERS = 2, /* start, User */
    SPAN_NUMBERS = 2,         /* off day, on day or -1 */
    RECORD_NUMBERS = 4,       /* start, end, energy, type */
};

/* A point. */
enum {
    MIRN,
    KIND,
    INSTALL,
    BASE,
    REGISTRATION_COUNT,
    SPAN_COUNT,
    RECORD_COUNT,
    PENDING,
    FIRST,
    LAST,
    SECTION,
    OPERATOR,
    SPARE,
    REGISTRATION_ROWS = 16,
    SPAN_ROWS = 32,
    RECORD_ROWS = 48, /* up to the point's end */
};

/* What a trial is lent. */
enum {
    NOTICES = 100,      /* at most */
    NOTICE_NUMBERS = 6, /* MIRN, start, end, energy, type, confirmed */
    ANSWER_NUMBERS = 5, /* of one notice: refusal, which, removed, User, lapsed */
};

/* The editions, by their number in the header. */
enum { STANDARD, LONG, EDITIONS };

struct edition {
    int64_t points, records; /* at most, records a point */
    int64_t reserve;         /* points reserved for each operator */
    size_t point_numbers;
};

static const struct edition editions[EDITIONS] = {
    [STANDARD] = {.points = 32, .records = 48, .reserve = 4, .point_numbers = 240},
    [LONG] = {.points = 16, .records = 108, .reserve = 2, .point_numbers = 480},
};

/* The place of a point's first number; points count from 0. */
static inline size_t point_place(const struct edition *edition, size_t point) {
    return HEADER_NUMBERS + edition->point_numbers * point;
}

#endif
