#include "chance.h"

#include "petlumas.h"
#include "places.h"
#include "words.h"

#include <string.h>

static uint64_t next_random(struct chance *c) {
    c->random ^= c->random >> 12;
    c->random ^= c->random << 25;
    c->random ^= c->random >> 27;
    return c->random * UINT64_C(2685821657736338717);
}

uint64_t below(struct chance *c, uint64_t n) {
    return next_random(c) % n;
}

bool one_in(struct chance *c, uint64_t n) {
    return below(c, n) == 0;
}

int64_t between(struct chance *c, int64_t least, int64_t most) {
    return least + (int64_t)below(c, (uint64_t)(most - least + 1));
}

int64_t wild(struct chance *c) {
    static const int64_t limits[] = {INT64_MIN, INT64_MAX, -1000000, 1000000, -1,         0,
                                     39999,     40000,     -2,       17,      9999999999, 1};
    uint8_t bytes[8];
    if (one_in(c, 4)) {
        for (size_t k = 0; k < sizeof bytes; k++)
            bytes[k] = (uint8_t)below(c, 256);
        return get_number(bytes, 0);
    }
    int64_t limit = limits[below(c, sizeof limits / sizeof *limits)];
    if (limit == INT64_MIN || limit == INT64_MAX)
        return limit;
    return limit + between(c, -1, 1);
}

static int64_t mostly(struct chance *c, int64_t good) {
    return one_in(c, 25) ? wild(c) : good;
}

/* ---- arguments */

static int64_t number_at(const struct chance *c, size_t place) {
    return get_number(c->reg, place);
}

static const struct edition *edition_of(const struct chance *c) {
    return &editions[number_at(c, EDITION)];
}

static size_t any_point(struct chance *c) {
    int64_t points = number_at(c, POINT_COUNT);
    return point_place(edition_of(c), points == 0 ? 0 : (size_t)below(c, (uint64_t)points));
}

static int64_t choose_mirn(struct chance *c, size_t point) {
    return one_in(c, 20) ? between(c, 1, 60) : mostly(c, number_at(c, point + MIRN));
}

static int64_t choose_user(struct chance *c) {
    return mostly(c, between(c, 1, 16));
}

static int64_t choose_energy(struct chance *c) {
    int64_t most = one_in(c, 2) ? 1000000 : 1000;
    return mostly(c, between(c, -most, most));
}

/* The day after a point's last filled day, or its install day. */
static int64_t next_day(const struct chance *c, size_t point) {
    int64_t records = number_at(c, point + RECORD_COUNT);
    if (records == 0)
        return number_at(c, point + INSTALL);
    return number_at(c, point + RECORD_ROWS + RECORD_NUMBERS * ((size_t)records - 1) + 1) + 1;
}

static int64_t choose_start(struct chance *c, size_t point) {
    int64_t records = number_at(c, point + RECORD_COUNT);
    int64_t spans = number_at(c, point + SPAN_COUNT);
    uint64_t way = below(c, 16);
    if (way < 3 && records > 0)
        return number_at(c, point + RECORD_ROWS +
                                RECORD_NUMBERS * (size_t)below(c, (uint64_t)records));
    if (way < 6 && spans > 0)
        return number_at(c, point + SPAN_ROWS + SPAN_NUMBERS * ((size_t)spans - 1) + 1);
    return mostly(c, next_day(c, point));
}

void choose_fresh(struct chance *c, int64_t *args) {
    args[0] = mostly(c, between(c, -1, 1000000));
    args[1] = mostly(c, between(c, -1, 1000));
    args[2] = mostly(c, between(c, STANDARD, LONG));
}

void choose_open(struct chance *c, int64_t *args) {
    args[0] = mostly(c, between(c, 1, 60));
    args[1] = mostly(c, between(c, 0, 1));
    args[2] = choose_user(c);
    args[3] = mostly(c, between(c, 0, 120));
    args[4] = mostly(c, between(c, -1, 10000));
    args[5] = mostly(c, between(c, 0, 1));
    args[6] = mostly(c, between(c, 1, 4));
}

void choose_energy_notice(struct chance *c, int64_t *args) {
    size_t point = any_point(c);
    int64_t kind = one_in(c, 12) ? between(c, 0, 1) : number_at(c, point + KIND);
    args[0] = choose_mirn(c, point);
    args[1] = choose_start(c, point);
    args[2] = args[1];
    if (kind == 0 && args[1] < 40000)
        args[2] += one_in(c, 4) ? between(c, 1, 90) : between(c, 1, 12);
    args[2] = mostly(c, args[2]);
    args[3] = choose_energy(c);
    args[4] = mostly(c, between(c, 0, 2));
    args[5] = mostly(c, between(c, 0, 1));
}

/* Mostly a few, at times about as many as a trial takes. */
void choose_count(struct chance *c, int64_t *args) {
    args[0] = mostly(c, one_in(c, 20) ? between(c, NOTICES - 9, NOTICES + 1) : between(c, 0, 9));
}

/* On where the last span is open, else off after the last on day and the last filled day. */
void choose_status(struct chance *c, int64_t *args) {
    size_t point = any_point(c);
    int64_t spans = number_at(c, point + SPAN_COUNT);
    size_t last = point + SPAN_ROWS + SPAN_NUMBERS * (spans == 0 ? 0 : (size_t)spans - 1);
    bool open = spans > 0 && number_at(c, last + 1) == -1;
    int64_t after = number_at(c, last + (open ? 0 : 1));
    int64_t day = next_day(c, point);
    args[0] = choose_mirn(c, point);
    args[1] = mostly(c, (open || after > day ? after : day) + between(c, 0, 4));
    args[2] = mostly(c, open ? 1 : 0);
}

void choose_request(struct chance *c, int64_t *args) {
    size_t point = any_point(c);
    args[0] = choose_mirn(c, point);
    args[1] = choose_user(c);
    args[2] = mostly(c, next_day(c, point) + between(c, 0, 30));
    args[3] = mostly(c, between(c, 0, 1));
}

void choose_withdraw(struct chance *c, int64_t *args) {
    size_t point = any_point(c);
    int64_t pending = number_at(c, point + PENDING);
    args[0] = choose_mirn(c, point);
    args[1] = pending != 0 && !one_in(c, 3) ? pending : choose_user(c);
}

/* Often after the last registration's start, so that a point fills up, else near the start of any.
   The notice day is mostly in time, else about the first one that is too late. */
void choose_correct(struct chance *c, int64_t *args) {
    size_t point = any_point(c);
    int64_t rows = number_at(c, point + REGISTRATION_COUNT);
    bool last = rows == 0 || !one_in(c, 4);
    size_t row = last ? (size_t)(rows == 0 ? 0 : rows - 1) : (size_t)below(c, (uint64_t)rows);
    int64_t start = number_at(c, point + REGISTRATION_ROWS + REGISTRATION_NUMBERS * row);
    int64_t day = start + (last ? between(c, 1, 9) : between(c, -2, 9));
    args[0] = choose_mirn(c, point);
    args[1] = choose_user(c);
    args[2] = mostly(c, day);
    args[3] = mostly(c, day + (one_in(c, 8) ? between(c, 424, 427) : between(c, 0, 425)));
}

void choose_account(struct chance *c, int64_t *args) {
    int64_t from = between(c, 0, 600);
    args[0] = choose_user(c);
    args[1] = mostly(c, from);
    args[2] = mostly(c, from + between(c, -100, 1000));
}

/* One window in eight has no days. */
void choose_allocate(struct chance *c, int64_t *args) {
    int64_t gasday = between(c, 1, one_in(c, 2) ? 130 : 1200);
    int64_t to = between(c, gasday > 100 ? gasday - 100 : 0, gasday - 1);
    args[0] = mostly(c, gasday);
    args[1] = mostly(c, one_in(c, 8) ? to + 1 : between(c, to > 400 ? to - 400 : 0, to));
    args[2] = mostly(c, to);
    args[3] = mostly(c, between(c, 0, 1000000000));
    args[4] = mostly(c, between(c, -1000000, 1000000));
    args[5] = mostly(c, between(c, -1000000, 1000000));
}

/* Now and then the first number that is no state's, or one with a state's low four bytes. */
void choose_state(struct chance *c, int64_t *args) {
    int64_t state = between(c, 1, 4);
    if (one_in(c, 20))
        state = 5 * between(c, 0, 1);
    else if (one_in(c, 20))
        state += INT64_C(1) << 32;
    args[0] = mostly(c, state);
}

void choose_date(struct chance *c, int64_t *args) {
    args[0] = mostly(c, between(c, 1969, 2080));
    args[1] = mostly(c, between(c, 0, 13));
    args[2] = mostly(c, between(c, 0, 32));
}

static void enter_energy(struct chance *c, const int64_t *a) {
    uint8_t answer[PETLUMAS_ENERGY_ANSWER_BYTES];
    petlumas_energy(c->reg, PETLUMAS_REGISTER_BYTES, answer, sizeof answer, a[0], a[1], a[2], a[3],
                    a[4], a[5]);
}

void choose_batch(struct chance *c, uint8_t *notices, size_t count) {
    uint8_t kept[PETLUMAS_REGISTER_BYTES];
    int64_t a[ARGS_MOST];
    memcpy(kept, c->reg, sizeof kept);
    for (size_t k = 0; k < count; k++) {
        choose_energy_notice(c, a);
        enter_energy(c, a);
        for (size_t i = 0; i < NOTICE_NUMBERS; i++)
            put_number(notices, NOTICE_NUMBERS * k + i, a[i]);
    }
    memcpy(c->reg, kept, sizeof kept);
}

/* ---- registers */

static size_t any_place(struct chance *c) {
    if (one_in(c, 8))
        return (size_t)below(c, REGISTER_NUMBERS);
    if (one_in(c, 8))
        return (size_t)below(c, HEADER_NUMBERS);
    size_t numbers = one_in(c, 2) ? RECORD_ROWS : edition_of(c)->point_numbers;
    size_t point = any_point(c);
    return point + (size_t)below(c, numbers);
}

/* Often the edition: a point of few records may then be sound in the other. */
void damage_number(struct chance *c, uint8_t *reg) {
    size_t place = any_place(c);
    uint64_t byte = below(c, 8);
    if (one_in(c, 12))
        put_number(reg, EDITION, between(c, -1, EDITIONS));
    else if (one_in(c, 4))
        reg[8 * place + byte] ^= (uint8_t)(1U << below(c, 8));
    else if (one_in(c, 2))
        put_number(reg, place, get_number(reg, any_place(c)));
    else
        put_number(reg, place, wild(c));
}

/* One notice on the register, most often a good one; of 18 ways three are a status, which
   keeps a point from filling up. */
static void feed(struct chance *c, uint64_t ways) {
    uint8_t answer[PETLUMAS_REQUEST_ANSWER_BYTES];
    uint8_t none[1] = {0};
    int64_t a[ARGS_MOST];
    uint64_t way = below(c, ways);
    if (way < 9) {
        choose_energy_notice(c, a);
        a[5] = 1;
        enter_energy(c, a);
    } else if (way < 15) {
        choose_request(c, a);
        petlumas_request(c->reg, PETLUMAS_REGISTER_BYTES, answer, sizeof answer, none, 0, a[0],
                         a[1], a[2], a[3]);
    } else {
        choose_status(c, a);
        petlumas_status(c->reg, PETLUMAS_REGISTER_BYTES, answer, sizeof answer, a[0], a[1], a[2]);
    }
}

/* As in a register from before points had operators: 0 stands for operator 1. */
static void forget_operators(struct chance *c) {
    size_t points = (size_t)number_at(c, POINT_COUNT);
    for (size_t i = 0; i < points; i++)
        put_number(c->reg, point_place(edition_of(c), i) + OPERATOR, 0);
}

static void open_points(struct chance *c, int64_t points) {
    uint8_t answer[8];
    /* Operator 4 alone gets 19 where the others' reserves begin. */
    int64_t least = one_in(c, 3) ? 4 : 1;
    for (int64_t i = 1; i <= points; i++) {
        /* One by one: C does not say in which order arguments are computed. */
        int64_t kind = between(c, 0, 1);
        int64_t user = between(c, 1, 16);
        int64_t install = between(c, 0, 60);
        int64_t base = between(c, 0, 1);
        int64_t section = between(c, 0, 1);
        int64_t operator_ = between(c, least, OPERATORS);
        petlumas_open(c->reg, PETLUMAS_REGISTER_BYTES, answer, sizeof answer, i, kind, user,
                      install, base, section, operator_);
    }
}

void start_register(struct chance *c, int64_t edition) {
    uint8_t answer[8];
    int64_t points = between(c, 1, one_in(c, 2) ? editions[between(c, STANDARD, LONG)].points : 3);
    int64_t daily = between(c, -1, 1000000);
    petlumas_fresh(c->reg, PETLUMAS_REGISTER_BYTES, answer, sizeof answer, -1, daily, edition);
    open_points(c, points);
    if (one_in(c, 4))
        forget_operators(c);
    uint64_t ways = one_in(c, 2) ? 15 : 18;
    for (uint64_t count = below(c, 10 * (uint64_t)editions[edition].records); count > 0; count--)
        feed(c, ways);
}
