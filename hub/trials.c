/* Boundary cases of trials in both editions: counts, lengths, refusals within a batch and the most
   records on the way. Every trial that is given is compared with its batch entered. */
#include "batches.h"
#include "checks.h"
#include "functions.h"
#include "places.h"
#include "words.h"

#include <string.h>

enum {
    BYTES = PETLUMAS_REGISTER_BYTES,
    PAST_BYTES = 64, /* lent past what is needed, at most */
    ANSWER_BYTES = PETLUMAS_TRIAL_ANSWER_BYTES,
    NOTICE_BYTES = PETLUMAS_TRIAL_NOTICE_BYTES,
    ANSWERS_BYTES = PETLUMAS_ENERGY_ANSWER_BYTES, /* of each notice */
    FILL = 0xaa,
};

/* One trial at a time: of this register and batch, which the cases make. */
static struct chance chance = {.random = 20790707};
static uint8_t reg[BYTES + PAST_BYTES];
static uint8_t batch[NOTICE_BYTES * (NOTICES + 1) + PAST_BYTES];
static struct buffers lent;

/* ---- trials */

struct lengths {
    size_t reg, answer, notices, answers;
};

/* What so many notices need. */
static struct lengths needed(size_t notices) {
    return (struct lengths){BYTES, ANSWER_BYTES, NOTICE_BYTES * notices, ANSWERS_BYTES * notices};
}

static void lend_all(const struct lengths *lengths) {
    static uint8_t fill[ANSWERS_BYTES * (NOTICES + 1) + PAST_BYTES];
    memset(fill, FILL, sizeof fill);
    lend(&chance, &lent.reg, reg, lengths->reg);
    lend(&chance, &lent.answer, fill, lengths->answer);
    lend(&chance, &lent.notices, batch, lengths->notices);
    lend(&chance, &lent.answers, fill, lengths->answers);
}

static void take_all_back(void) {
    take_back(&lent.reg);
    take_back(&lent.answer);
    take_back(&lent.notices);
    take_back(&lent.answers);
}

/* What is given, beside the batch entered into a copy of the register. */
static void compare_entered(size_t notices) {
    static uint8_t copy[BYTES], answers[ANSWERS_BYTES * NOTICES];
    memcpy(copy, lent.reg.before, BYTES);
    struct counted counted = enter_batch(copy, lent.notices.before, answers, notices);
    expect(get_number(lent.answer.at, 1), counted.most, "the most records");
    expect(get_number(lent.answer.at, 2), counted.removed, "the total removed");
    for (size_t k = 0; k < ANSWER_NUMBERS * notices; k++)
        expect(get_number(lent.answers.at, k), get_number(answers, k), "a number of the answers");
}

/* The numbers of the answer; those of a refusal are 0. */
static void check_answer(int64_t result) {
    expect(get_number(lent.answer.at, 0), result, "the refusal in the answer");
    for (size_t k = 1; k < ANSWER_BYTES / 8 && result != 0; k++)
        expect(get_number(lent.answer.at, k), 0, "a field of a refusal");
}

/* A trial of the batch on buffers of these lengths must get this refusal. Every byte that is lent
   is looked at. What was given can be seen until all is taken back. */
static void try_lent(struct lengths lengths, int64_t count, int64_t refusal, const char *what) {
    bool answered = lengths.answer >= ANSWER_BYTES;
    size_t notices = refusal == 0 ? (size_t)count : 0;
    take_all_back();
    lend_all(&lengths);
    int64_t result = functions[TRIAL].call(&lent, &count);
    expect(result, refusal, what);
    expect(unchanged_from(&lent.reg, 0), true, "the register is as it was");
    expect(unchanged_from(&lent.notices, 0), true, "the notices are as they were");
    expect(unchanged_from(&lent.answer, answered ? ANSWER_BYTES : 0), true, "past the answer");
    expect(unchanged_from(&lent.answers, ANSWERS_BYTES * notices), true, "past the answers");
    if (answered)
        check_answer(result);
    if (result == 0)
        compare_entered(notices);
}

/* On buffers of their exact size. */
static void try_batch(size_t notices, int64_t most, int64_t removed) {
    try_lent(needed(notices), (int64_t)notices, 0, "a trial");
    expect(get_number(lent.answer.at, 1), most, "the most records as worked out");
    expect(get_number(lent.answer.at, 2), removed, "the total removed as worked out");
}

static int64_t refusal_of(size_t notice) {
    return get_number(lent.answers.at, ANSWER_NUMBERS * notice);
}

/* ---- batches */

static void put_notice(size_t notice, const int64_t *numbers) {
    for (size_t k = 0; k < NOTICE_NUMBERS; k++)
        put_number(batch, NOTICE_NUMBERS * notice + k, numbers[k]);
}

static void put_record(size_t notice, int64_t mirn, int64_t start, int64_t end) {
    put_notice(notice, (int64_t[NOTICE_NUMBERS]){mirn, start, end, 10, 0, 0});
}

/* A notice and what it answers, worked out by hand. */
struct row {
    int64_t notice[NOTICE_NUMBERS], answer[ANSWER_NUMBERS];
};

static void try_rows(const struct row *rows, size_t count, int64_t most, int64_t removed) {
    for (size_t i = 0; i < count; i++)
        put_notice(i, rows[i].notice);
    try_batch(count, most, removed);
    for (size_t i = 0; i < count; i++)
        for (size_t k = 0; k < ANSWER_NUMBERS; k++)
            expect(get_number(lent.answers.at, ANSWER_NUMBERS * i + k), rows[i].answer[k],
                   "a number as worked out");
}

/* ---- registers */

static void start(int64_t edition) {
    uint8_t answer[PETLUMAS_FRESH_ANSWER_BYTES];
    expect(petlumas_fresh(reg, BYTES, answer, sizeof answer, 100, -1, edition), 0, "fresh");
}

static void open_point(int64_t mirn, int64_t kind, int64_t section) {
    uint8_t answer[PETLUMAS_OPEN_ANSWER_BYTES];
    expect(petlumas_open(reg, BYTES, answer, sizeof answer, mirn, kind, 1, 0, -1, section, 1), 0,
           "opening");
}

static void enter(int64_t mirn, int64_t start_day, int64_t end) {
    uint8_t answer[PETLUMAS_ENERGY_ANSWER_BYTES];
    expect(petlumas_energy(reg, BYTES, answer, sizeof answer, mirn, start_day, end, 10, 0, 0), 0,
           "record");
}

/* So many records of two days. */
static void enter_pairs(int64_t mirn, int64_t records) {
    for (int64_t k = 0; k < records; k++)
        enter(mirn, 2 * k, 2 * k + 1);
}

static void turn_off(int64_t mirn, int64_t day) {
    uint8_t answer[PETLUMAS_STATUS_ANSWER_BYTES];
    expect(petlumas_status(reg, BYTES, answer, sizeof answer, mirn, day, 0), 0, "off");
}

/* To User 2, in a period of the days 0 to 28. */
static void request(int64_t mirn) {
    uint8_t answer[PETLUMAS_REQUEST_ANSWER_BYTES], none[1] = {0};
    expect(petlumas_request(reg, BYTES, answer, sizeof answer, none, 0, mirn, 2, 14, 0), 0,
           "request");
    expect(get_number(answer, 1), 0, "the first day of the period");
    expect(get_number(answer, 2), 28, "the last day of the period");
}

/* ---- what a trial is lent */

/* One daily point, and notices that append day by day. */
static void start_days(int64_t edition) {
    start(edition);
    open_point(1, 1, 0);
    for (size_t k = 0; k <= NOTICES; k++)
        put_record(k, 1, (int64_t)k, (int64_t)k);
}

static void test_counts(int64_t edition) {
    static const int64_t none[] = {-1,        NOTICES + 1,        INT64_MIN,
                                   INT64_MAX, INT64_C(1) << 32,   (INT64_C(1) << 32) + 1,
                                   -NOTICES,  -(INT64_C(1) << 32)};
    static const int64_t good[] = {0, 1, 2, NOTICES - 1, NOTICES};
    start_days(edition);
    for (size_t k = 0; k < sizeof none / sizeof *none; k++)
        try_lent(needed(NOTICES + 1), none[k], 2, "a count that no trial takes");
    for (size_t k = 0; k < sizeof good / sizeof *good; k++)
        try_lent(needed(NOTICES + 1), good[k], 0, "a count that a trial takes");
}

/* Buffers a little longer and shorter than this count needs. */
static void test_lengths_of(size_t notices) {
    static const size_t differences[] = {1, 7, 8, 9, ANSWERS_BYTES, NOTICE_BYTES};
    int64_t count = (int64_t)notices;
    for (size_t k = 0; k < sizeof differences / sizeof *differences; k++) {
        size_t bytes = differences[k];
        struct lengths l = needed(notices);
        l.notices += bytes;
        try_lent(l, count, 0, "longer notices");
        l.answers += bytes;
        try_lent(l, count, 0, "longer notices and answers");
        l = needed(notices);
        l.notices = l.notices > bytes ? l.notices - bytes : 0;
        try_lent(l, count, notices == 0 ? 0 : 2, "shorter notices");
        l = needed(notices);
        l.answers = l.answers > bytes ? l.answers - bytes : 0;
        try_lent(l, count, notices == 0 ? 0 : 2, "shorter answers");
    }
}

static void test_lengths(int64_t edition) {
    start_days(edition);
    test_lengths_of(0);
    test_lengths_of(1);
    test_lengths_of(2);
    test_lengths_of(NOTICES);
    try_lent((struct lengths){BYTES, ANSWER_BYTES, 0, 0}, NOTICES, 2, "no notices and no answers");
}

/* Row 1 comes before row 2, and a register may be longer. */
static void test_registers(int64_t edition) {
    static const size_t short_of[] = {1, 8, BYTES};
    struct lengths l = needed(1);
    start_days(edition);
    for (size_t k = 0; k < sizeof short_of / sizeof *short_of; k++) {
        l.reg = BYTES - short_of[k];
        try_lent(l, 1, 1, "a short register");
        try_lent(l, -1, 1, "a short register and no such count");
    }
    l.reg = BYTES + PAST_BYTES;
    try_lent(l, 1, 0, "a longer register");
    for (size_t place = EDITION; place < HEADER_NUMBERS; place++) {
        int64_t found = get_number(reg, place);
        put_number(reg, place, EDITIONS);
        try_lent(needed(1), 1, 1, "an unsound register");
        try_lent(needed(1), NOTICES + 1, 1, "an unsound register and no such count");
        put_number(reg, place, found);
    }
    put_number(reg, POINT_COUNT, editions[edition].points + 1);
    try_lent(needed(0), 0, 1, "a register of too many points");
}

/* With a short answer nothing is written. */
static void test_answer_lengths(int64_t edition) {
    static const size_t lengths[] = {0, 1, 8, ANSWER_BYTES - 8, ANSWER_BYTES - 1};
    struct lengths l = needed(3);
    start_days(edition);
    for (size_t k = 0; k < sizeof lengths / sizeof *lengths; k++) {
        l.answer = lengths[k];
        try_lent(l, 3, 2, "a short answer");
        try_lent(l, 4, 2, "a short answer and short notices");
        l.reg = BYTES - 1;
        try_lent(l, 3, 1, "a short answer and a short register");
        l.reg = BYTES;
        put_number(reg, HEADER_SPARE, 1);
        try_lent(l, 3, 1, "a short answer and an unsound register");
        put_number(reg, HEADER_SPARE, 0);
    }
    l.answer = ANSWER_BYTES + 1;
    try_lent(l, 3, 0, "an answer with a byte more");
    l.answer = ANSWER_BYTES + PAST_BYTES;
    try_lent(l, 3, 0, "a longer answer");
}

/* ---- what a trial gives */

/* A request lapses, is registered by an append that ends in its period, and in section 1 waits for
   an actual reading. The trials do not see one another. */
static void test_outcomes(int64_t edition) {
    static const struct row lapse[] = {
        {{1, 0, 40, 10, 0, 0}, {0, 1, 0, 0, 1}},  {{1, 0, 20, 10, 0, 0}, {0, 3, 0, 0, 0}},
        {{1, 21, 30, 10, 0, 0}, {0, 1, 0, 0, 0}}, {{1, 0, 20, 99, 2, 0}, {0, 2, 0, 0, 0}},
        {{1, 0, 9, 10, 0, 0}, {0, 3, 1, 0, 0}},   {{1, 10, 28, 10, 0, 0}, {0, 1, 0, 0, 0}},
    };
    static const struct row transfer[] = {
        {{1, 0, 28, 10, 1, 0}, {0, 1, 0, 2, 0}},  {{1, 29, 30, 10, 0, 0}, {0, 1, 0, 0, 0}},
        {{2, 0, 9, 10, 1, 0}, {0, 1, 0, 0, 0}},   {{2, 10, 19, 10, 2, 0}, {0, 1, 0, 0, 0}},
        {{2, 20, 28, 10, 0, 0}, {0, 1, 0, 2, 0}},
    };
    start(edition);
    open_point(1, 0, 0);
    open_point(2, 0, 1);
    request(1);
    request(2);
    try_rows(lapse, sizeof lapse / sizeof *lapse, 2, 1);
    try_rows(transfer, sizeof transfer / sizeof *transfer, 3, 0);
    try_rows(lapse, sizeof lapse / sizeof *lapse, 2, 1);
}

/* Each refusal of a notice but 2 and 16; the batch goes on. Point 1 is off from day 50 on. */
static void test_refusals(int64_t edition) {
    static const struct row rows[] = {
        {{1, 0, 9, 10, 0, 0}, {0, 1, 0, 0, 0}},     {{3, 0, 9, 10, 0, 0}, {4, 0, 0, 0, 0}},
        {{1, 10, 10, 10, 0, 0}, {6, 0, 0, 0, 0}},   {{1, 11, 19, 10, 0, 0}, {7, 0, 0, 0, 0}},
        {{1, 10, 50, 10, 0, 0}, {8, 0, 0, 0, 0}},   {{1, 10, 49, 101, 0, 0}, {9, 0, 0, 0, 0}},
        {{1, 10, 49, -101, 0, 1}, {0, 1, 0, 0, 0}}, {{1, 50, 60, 10, 0, 0}, {7, 0, 0, 0, 0}},
        {{2, 0, 1, 10, 0, 0}, {6, 0, 0, 0, 0}},     {{2, 0, 0, 10, 0, 0}, {0, 1, 0, 0, 0}},
        {{1, 0, 8, 10, 0, 0}, {0, 3, 1, 0, 0}},
    };
    start(edition);
    open_point(1, 0, 0);
    open_point(2, 1, 0);
    turn_off(1, 50);
    try_rows(rows, sizeof rows / sizeof *rows, 2, 1);
}

/* Each number of a notice out of range: 2 for that notice only. */
static void test_ranges(int64_t edition) {
    static const int64_t out[NOTICE_NUMBERS][4] = {
        {0, 10000000000, INT64_MIN, INT64_MAX}, {-1, 40000, INT64_MIN, INT64_MAX},
        {-1, 40000, INT64_MIN, INT64_MAX},      {-1000001, 1000001, INT64_MIN, INT64_MAX},
        {-1, 3, INT64_MIN, INT64_MAX},          {-1, 2, INT64_MIN, INT64_MAX},
    };
    start_days(edition);
    for (size_t k = 0; k < NOTICE_NUMBERS; k++)
        for (size_t i = 0; i < sizeof out[k] / sizeof *out[k]; i++) {
            struct row rows[] = {{{1, 0, 0, 10, 0, 0}, {0, 1, 0, 0, 0}},
                                 {{1, 1, 1, 10, 0, 0}, {2, 0, 0, 0, 0}},
                                 {{1, 1, 1, 10, 0, 0}, {0, 1, 0, 0, 0}}};
            rows[1].notice[k] = out[k][i];
            try_rows(rows, sizeof rows / sizeof *rows, 2, 0);
        }
}

/* No point has records, whatever the notices are. */
static void test_no_point(int64_t edition) {
    start_days(edition);
    start(edition);
    try_batch(0, 0, 0);
    try_batch(1, 0, 0);
    expect(refusal_of(0), 4, "a notice where there is no point");
    try_batch(NOTICES, 0, 0);
    expect(refusal_of(NOTICES - 1), 4, "the last notice where there is no point");
}

/* The most records are those of any point, at the start, on the way or at the end. */
static void test_most(int64_t edition) {
    start(edition);
    for (int64_t mirn = 1; mirn <= 3; mirn++)
        open_point(mirn, 0, 0);
    enter_pairs(1, 2);
    enter_pairs(2, 5);
    enter_pairs(3, 3);
    try_batch(0, 5, 0);
    put_record(0, 2, 0, 2);
    try_batch(1, 5, 4);
    put_record(1, 2, 3, 4);
    put_record(2, 3, 6, 7);
    try_batch(3, 5, 4);
    for (int64_t k = 0; k < 3; k++)
        put_record((size_t)k, 3, 6 + 2 * k, 7 + 2 * k);
    try_batch(3, 6, 0);
    put_record(3, 3, 2, 4);
    try_batch(4, 6, 4);
}

/* Appends up to the room of a point or of a batch, then a recut that removes all but one. */
static void test_on_the_way(int64_t edition) {
    int64_t records = editions[edition].records;
    int64_t appends = records < NOTICES ? records : NOTICES - 1;
    start(edition);
    open_point(1, 0, 0);
    for (int64_t k = 0; k < appends; k++)
        put_record((size_t)k, 1, 2 * k, 2 * k + 1);
    put_record((size_t)appends, 1, 0, 2);
    try_batch((size_t)appends, appends, 0);
    try_batch((size_t)appends + 1, appends, appends - 1);
}

static void test_full(int64_t edition) {
    int64_t records = editions[edition].records;
    const struct row rows[] = {
        {{1, 2 * records, 2 * records + 1, 10, 0, 0}, {16, 0, 0, 0, 0}},
        {{1, 2 * records - 2, 2 * records - 1, 11, 0, 0}, {0, 2, 0, 0, 0}},
        {{1, 2 * records, 2 * records + 1, 10, 0, 0}, {16, 0, 0, 0, 0}},
        {{1, 0, 2, 10, 0, 0}, {0, 3, records - 1, 0, 0}},
        {{1, 3, 4, 10, 0, 0}, {0, 1, 0, 0, 0}},
    };
    start(edition);
    open_point(1, 0, 0);
    enter_pairs(1, records - 1);
    put_record(0, 1, 2 * records - 2, 2 * records - 1);
    put_record(1, 1, 2 * records, 2 * records + 1);
    try_batch(1, records, 0);
    try_batch(2, records, 0);
    expect(refusal_of(1), 16, "the first append that a point has no room for");
    enter(1, 2 * records - 2, 2 * records - 1);
    try_rows(rows, sizeof rows / sizeof *rows, records, records - 1);
}

/* Full batches on registers by chance. */
static void test_by_chance(int64_t edition, int registers) {
    for (; registers > 0; registers--) {
        start_register(&chance, edition);
        memcpy(reg, chance.reg, BYTES);
        choose_batch(&chance, batch, NOTICES);
        try_lent(needed(NOTICES), NOTICES, 0, "a trial by chance");
    }
}

int main(void) {
    make_arena(&lent.reg);
    make_arena(&lent.answer);
    make_arena(&lent.notices);
    make_arena(&lent.answers);
    for (int64_t edition = STANDARD; edition < EDITIONS; edition++) {
        test_counts(edition);
        test_lengths(edition);
        test_registers(edition);
        test_answer_lengths(edition);
        test_outcomes(edition);
        test_refusals(edition);
        test_ranges(edition);
        test_no_point(edition);
        test_most(edition);
        test_on_the_way(edition);
        test_full(edition);
        test_by_chance(edition, 30);
    }
    take_all_back();
    print_checks("trials");
    return 0;
}
