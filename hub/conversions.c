#include "conversions.h"

#include "petlumas.h"
#include "places.h"
#include "words.h"

#include <string.h>

static const struct edition *edition_of(const uint8_t *reg) {
    return &editions[get_number(reg, EDITION)];
}

static const struct edition *other_than(const uint8_t *reg) {
    return &editions[LONG - get_number(reg, EDITION)];
}

/* A point from before points had operators is operator 1's. */
static int64_t operator_at(const uint8_t *reg, size_t point) {
    int64_t operator_ = get_number(reg, point + OPERATOR);
    return operator_ == 0 ? 1 : operator_;
}

/* How many points an operator lacks of its reserve in an edition. */
static int64_t unfilled(const uint8_t *reg, int64_t operator_, const struct edition *edition) {
    int64_t lacks = edition->reserve;
    for (int64_t i = 0; i < get_number(reg, POINT_COUNT); i++)
        if (lacks > 0 && operator_at(reg, point_place(edition_of(reg), (size_t)i)) == operator_)
            lacks--;
    return lacks;
}

int64_t judge_room(const uint8_t *reg) {
    const struct edition *to = other_than(reg);
    int64_t points = get_number(reg, POINT_COUNT);
    int64_t reserved = 0;
    if (points > to->points)
        return 22;
    for (int64_t i = 0; i < points; i++)
        if (get_number(reg, point_place(edition_of(reg), (size_t)i) + RECORD_COUNT) > to->records)
            return 22;
    for (int64_t operator_ = 1; operator_ <= OPERATORS; operator_++)
        reserved += unfilled(reg, operator_, to);
    return to->points - points < reserved ? 22 : 0;
}

static void write_point(uint8_t *other, size_t to, const uint8_t *reg, size_t from) {
    size_t records = (size_t)get_number(reg, from + RECORD_COUNT);
    for (size_t k = 0; k < RECORD_ROWS + RECORD_NUMBERS * records; k++)
        put_number(other, to + k, get_number(reg, from + k));
    put_number(other, to + OPERATOR, operator_at(reg, from));
}

void write_converted(uint8_t *other, const uint8_t *reg) {
    int64_t points = get_number(reg, POINT_COUNT);
    memset(other, 0, PETLUMAS_REGISTER_BYTES);
    put_number(other, POINT_COUNT, points);
    put_number(other, NONDAILY, get_number(reg, NONDAILY));
    put_number(other, DAILY, get_number(reg, DAILY));
    put_number(other, EDITION, LONG - get_number(reg, EDITION));
    for (size_t i = 0; i < (size_t)points; i++)
        write_point(other, point_place(other_than(reg), i), reg, point_place(edition_of(reg), i));
}
