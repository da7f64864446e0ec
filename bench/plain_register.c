/* The whole register: soundness, its images, its conversion. */
#include "plain.h"
#include "plain_rows.h"

#include <string.h>

enum {
    STATES = 4,
    BLOCKS = 124,
    BLOCK_NUMBERS = 62,
    LABEL_AT = 8 * BLOCK_NUMBERS, /* state and block number, as one word */
    CHECK_AT = LABEL_AT + 8,
    BLOCK_BYTES = CHECK_AT + 8,
    IMAGE_BYTES = BLOCKS * BLOCK_BYTES,
};

/* ---- soundness */

static bool all_zero(const int64_t *from, const int64_t *to) {
    int64_t any = 0;
    while (from < to)
        any |= *from++;
    return any == 0;
}

static bool facts_sound(const int64_t *p, const struct edition *edition) {
    return within(p[MIRN], 1, MIRN_MOST) && within(p[KIND], 0, 1) && is_day(p[INSTALL]) &&
           within(p[BASE], 0, 10000) && within(p[REGISTRATION_COUNT], 1, REGISTRATIONS) &&
           within(p[SPAN_COUNT], 0, SPANS) && within(p[RECORD_COUNT], 0, edition->records) &&
           within(p[SECTION], 0, 1) && within(p[OPERATOR], 0, OPERATORS) &&
           all_zero(p + SPARE, p + REGISTRATION_ROWS);
}

static bool registrations_sound(const int64_t *p) {
    const int64_t *end = registrations_end(p);
    if (p[REGISTRATION_ROWS] != p[INSTALL])
        return false;
    for (const int64_t *r = registrations(p); r < end; r += 2) {
        if (!within(r[1], 1, USERS))
            return false;
        if (r > registrations(p) && (r[0] <= r[-2] || r[0] > LAST_DAY + 1 || r[1] == r[-1]))
            return false;
    }
    return all_zero(end, p + SPAN_ROWS);
}

static bool spans_sound(const int64_t *p) {
    const int64_t *end = spans_end(p);
    int64_t from = p[INSTALL];
    for (const int64_t *s = spans(p); s < end; s += 2) {
        if (!within(s[0], from, LAST_DAY))
            return false;
        if (s[1] == -1 && s + 2 == end)
            break;
        if (!within(s[1], s[0] + 1, LAST_DAY))
            return false;
        from = s[1] + 1;
    }
    return all_zero(end, p + RECORD_ROWS);
}

static bool record_fits(const int64_t *p, const int64_t *r) {
    return is_day(r[1]) && (p[KIND] == 1 ? r[0] == r[1] : r[0] < r[1]) &&
           within(r[2], -ENERGY_MOST, ENERGY_MOST) && within(r[3], 0, 2);
}

/* Records and spans ascend, so one pass over both finds each record's only possible start. */
static bool records_sound(const int64_t *p, const struct edition *edition) {
    const int64_t *s = spans(p);
    const int64_t *off_end = spans_end(p);
    const int64_t *end = records_end(p);
    int64_t day = p[INSTALL];
    for (const int64_t *r = records(p); r < end; r += 4) {
        while (s < off_end && s[1] != -1 && s[1] <= day)
            s += 2;
        if (s < off_end && s[0] <= day) {
            if (s[1] == -1)
                return false;
            day = s[1];
            s += 2;
        }
        if (r[0] != day || !record_fits(p, r) || (s < off_end && s[0] <= r[1]))
            return false;
        day = r[1] + 1;
    }
    return all_zero(end, p + edition->point_numbers);
}

static bool pending_sound(const int64_t *p) {
    if (p[PENDING] == 0)
        return p[FIRST] == 0 && p[LAST] == 0;
    return within(p[PENDING], 1, USERS) && p[PENDING] != registrations_end(p)[-1] &&
           is_day(p[FIRST]) && within(p[LAST], p[FIRST], LAST_DAY) &&
           p[REGISTRATION_COUNT] < REGISTRATIONS;
}

static bool point_sound(const int64_t *p, const struct edition *edition) {
    return facts_sound(p, edition) && registrations_sound(p) && spans_sound(p) &&
           records_sound(p, edition) && pending_sound(p);
}

static bool mirns_differ(const int64_t *table) {
    const int64_t *end = points_end(table);
    for (const int64_t *p = points(table); p < end; p += stride(table))
        for (const int64_t *q = points(table); q < p; q += stride(table))
            if (p[MIRN] == q[MIRN])
                return false;
    return true;
}

static bool header_sound(const int64_t *table) {
    return within(table[EDITION], STANDARD, LONG) &&
           within(table[POINT_COUNT], 0, edition_of(table)->points) &&
           within(table[NONDAILY], -1, ENERGY_MOST) && within(table[DAILY], -1, ENERGY_MOST) &&
           all_zero(table + HEADER_SPARE, table + HEADER_NUMBERS);
}

bool plain_sound(const int64_t *table, size_t length) {
    if (length < REGISTER_NUMBERS || !header_sound(table))
        return false;
    const int64_t *end = points_end(table);
    for (const int64_t *p = points(table); p < end; p += stride(table))
        if (!point_sound(p, edition_of(table)))
            return false;
    return mirns_differ(table) && all_zero(end, table + REGISTER_NUMBERS);
}

/* ---- save and restore */

/* Words go in and out of an image as they lie in memory. */
_Static_assert(__BYTE_ORDER__ == __ORDER_LITTLE_ENDIAN__, "images are little endian");

struct check {
    uint64_t sum, sums;
};

static void add(struct check *check, uint64_t word) {
    check->sum += word;
    check->sums += check->sum;
}

static void save_block(const int64_t *numbers, uint64_t label, uint8_t *block) {
    struct check check = {0, 0};
    for (size_t k = 0; k < BLOCK_NUMBERS; k++) {
        add(&check, (uint64_t)numbers[k]);
        memcpy(block + 8 * k, &numbers[k], 8);
    }
    add(&check, label);
    memcpy(block + LABEL_AT, &label, 8);
    memcpy(block + CHECK_AT, &check.sums, 8);
}

/* False if the check is wrong. */
static bool load_block(const uint8_t *block, int64_t *numbers, uint64_t *label) {
    struct check check = {0, 0};
    for (size_t k = 0; k < BLOCK_NUMBERS; k++) {
        memcpy(&numbers[k], block + 8 * k, 8);
        add(&check, (uint64_t)numbers[k]);
    }
    memcpy(label, block + LABEL_AT, 8);
    add(&check, *label);
    return memcmp(block + CHECK_AT, &check.sums, 8) == 0;
}

int64_t plain_save(const int64_t *table, size_t length, uint8_t *image, size_t image_length,
                   int64_t state) {
    if (!plain_sound(table, length))
        return 1;
    if (!within(state, 1, STATES) || image_length < IMAGE_BYTES)
        return 2;
    for (uint64_t b = 0; b < BLOCKS; b++)
        save_block(table + BLOCK_NUMBERS * b, (uint64_t)state | b << 32, image + BLOCK_BYTES * b);
    return 0;
}

int64_t plain_restore(int64_t *table, size_t length, const uint8_t *image, size_t image_length,
                      int64_t state) {
    int64_t held[REGISTER_NUMBERS];
    bool other = false;
    if (length < REGISTER_NUMBERS)
        return 1;
    if (!within(state, 1, STATES) || image_length < IMAGE_BYTES)
        return 2;
    for (uint64_t b = 0; b < BLOCKS; b++) {
        uint64_t label;
        if (!load_block(image + BLOCK_BYTES * b, held + BLOCK_NUMBERS * b, &label) ||
            label >> 32 != b)
            return 17;
        other = other || (label & UINT32_MAX) != (uint64_t)state;
    }
    if (other)
        return 18;
    if (!plain_sound(held, REGISTER_NUMBERS))
        return 1;
    memcpy(table, held, sizeof held);
    return 0;
}

/* ---- convert */

/* An operator 0 is 1. */
static int64_t operator_of(const int64_t *p) {
    return p[OPERATOR] == 0 ? 1 : p[OPERATOR];
}

static bool has_room(const int64_t *table, const struct edition *to) {
    int64_t left = to->points - table[POINT_COUNT];
    int64_t held[1 + OPERATORS] = {0};
    for (const int64_t *p = points(table); p < points_end(table); p += stride(table)) {
        if (p[RECORD_COUNT] > to->records)
            return false;
        held[operator_of(p)]++;
    }
    for (int64_t k = 1; k <= OPERATORS; k++)
        if (held[k] < to->reserve)
            left -= to->reserve - held[k];
    return left >= 0;
}

int64_t plain_convert(const int64_t *table, size_t length, int64_t *other, size_t other_length) {
    if (!plain_sound(table, length) || other_length < REGISTER_NUMBERS)
        return 1;
    int64_t number = LONG - table[EDITION];
    if (!has_room(table, &editions[number]))
        return 22;
    memset(other, 0, REGISTER_NUMBERS * sizeof *other);
    memcpy(other, table, HEADER_NUMBERS * sizeof *other);
    other[EDITION] = number;
    int64_t *q = other + HEADER_NUMBERS;
    for (const int64_t *p = points(table); p < points_end(table); p += stride(table)) {
        memcpy(q, p, (size_t)(records_end(p) - p) * sizeof *q);
        q[OPERATOR] = operator_of(p);
        q += editions[number].point_numbers;
    }
    return 0;
}
