/* Calls every function on damaged registers and images and on buffers of odd lengths and looks at
   what it left in every buffer. */
#include "batches.h"
#include "conversions.h"
#include "functions.h"
#include "images.h"
#include "places.h"
#include "words.h"

#include <inttypes.h>
#include <stdio.h>
#include <stdlib.h>
#include <string.h>

enum {
    REGISTER_BYTES = PETLUMAS_REGISTER_BYTES,
    PAST_BYTES = 128, /* lent behind a register or an image at most */
    IMAGE_BYTES = PETLUMAS_IMAGE_BYTES,
    SHARES_BYTES = PETLUMAS_ALLOCATE_TABLE_BYTES,
    REFUSALS = 23,
    CASES_PER_REGISTER = 250,
};

struct test {
    struct chance chance;
    uint64_t number; /* of the present case */
    uint64_t calls;
    uint64_t failures;
    uint8_t work[REGISTER_BYTES + PAST_BYTES]; /* the chance's register, perhaps damaged */
    uint8_t earlier[REGISTER_BYTES];           /* a sound one from before it */
    uint8_t copy[IMAGE_BYTES + PAST_BYTES];    /* what is lent as an image or expected of a call */
    struct buffers lent;
};

/* ---- lent buffers */

static void lend_filled(struct test *t, struct lent *lent, size_t length) {
    memset(t->copy, (int)below(&t->chance, 256), length);
    lend(&t->chance, lent, t->copy, length);
}

/* Often what is needed, else a few bytes less or more, or none. */
static size_t choose_length(struct test *t, size_t needed) {
    if (needed == 0)
        return (size_t)below(&t->chance, 64);
    switch (below(&t->chance, 8)) {
    case 0:
        return needed - (size_t)between(&t->chance, 1, 7);
    case 1:
        return needed + (size_t)between(&t->chance, 1, 64);
    case 2:
        return one_in(&t->chance, 2) ? 0 : (size_t)below(&t->chance, needed);
    default:
        return needed;
    }
}

/* The same of a register. */
static size_t choose_register_length(struct test *t) {
    switch (below(&t->chance, 12)) {
    case 0:
        return REGISTER_BYTES - (size_t)between(&t->chance, 1, 9);
    case 1:
        return (size_t)below(&t->chance, REGISTER_BYTES);
    case 2:
    case 3:
        return REGISTER_BYTES + (size_t)between(&t->chance, 1, PAST_BYTES);
    default:
        return REGISTER_BYTES;
    }
}

/* For a count that no trial takes there are a few notices all the same. */
static void lend_batch(struct test *t, int64_t count) {
    struct chance *c = &t->chance;
    size_t notices = 0 <= count && count <= NOTICES + 1 ? (size_t)count : (size_t)below(c, 4);
    size_t given = 8 * NOTICE_NUMBERS * notices;
    size_t room = 8 * ANSWER_NUMBERS * notices;
    memset(t->copy, 0, given + PAST_BYTES);
    choose_batch(c, t->copy, notices);
    lend(c, &t->lent.notices, t->copy, choose_length(t, given));
    lend_filled(t, &t->lent.answers, choose_length(t, room));
}

static void lend_holidays(struct test *t) {
    uint8_t list[8 * 520];
    size_t count = one_in(&t->chance, 8) ? (size_t)between(&t->chance, 505, 519)
                                         : (size_t)below(&t->chance, 20);
    int64_t day = between(&t->chance, 0, 300);
    memset(list, 0, sizeof list);
    for (size_t k = 0; k < count; k++) {
        put_number(list, k, one_in(&t->chance, 200) ? wild(&t->chance) : day);
        day += between(&t->chance, 1, 40);
    }
    lend(&t->chance, &t->lent.holidays, list, 8 * count + (size_t)below(&t->chance, 8));
}

/* The register of an image: the case's, which may be unsound, the present sound one, or the last of
   the list before, which was begun in the other edition. */
static const uint8_t *choose_imaged(struct test *t) {
    switch (below(&t->chance, 4)) {
    case 0:
        return t->earlier;
    case 1:
        return t->chance.reg;
    default:
        return t->work;
    }
}

/* For restore an image, as it is or damaged; for save, and sometimes for restore, no image. */
static void lend_image(struct test *t, bool restores, int64_t state) {
    struct chance *c = &t->chance;
    memset(t->copy, one_in(c, 2) ? 0 : (int)below(c, 256), sizeof t->copy);
    if (restores && !one_in(c, 20)) {
        const uint8_t *reg = choose_imaged(t);
        write_image(t->copy, reg, one_in(c, 10) ? (uint32_t)below(c, 6) : (uint32_t)state);
        if (one_in(c, 2))
            for (uint64_t k = 1 + below(c, 3); k > 0; k--)
                damage_image(c, t->copy);
    }
    lend(c, &t->lent.image, t->copy, choose_length(t, IMAGE_BYTES));
}

/* What is lent for a register of the other edition: bytes of one kind, or a register. */
static void lend_other(struct test *t) {
    size_t length = choose_register_length(t);
    bool filled = one_in(&t->chance, 2);
    if (filled)
        memset(t->copy, (int)below(&t->chance, 256), length);
    lend(&t->chance, &t->lent.other, filled ? t->copy : t->work, length);
}

/* ---- what a call must leave */

static void expect(struct test *t, bool holds, const struct function *f, const char *what) {
    if (holds)
        return;
    t->failures++;
    fprintf(stderr, "case %" PRIu64 ", %s: %s\n", t->number, f->name, what);
}

static void check_answer(struct test *t, const struct function *f, int64_t result) {
    if (t->lent.answer.length < 8 * f->fields) {
        expect(t, result == 1 || result == 2, f, "a short answer is neither 1 nor 2");
        expect(t, unchanged_from(&t->lent.answer, 0), f, "a short answer was written");
        return;
    }
    expect(t, get_number(t->lent.answer.at, 0) == result, f, "the result is not the refusal");
    for (size_t k = 1; k < f->fields && result != 0; k++)
        expect(t, get_number(t->lent.answer.at, k) == 0, f, "a field of a refusal is not 0");
    expect(t, unchanged_from(&t->lent.answer, 8 * f->fields), f, "bytes past the answer changed");
}

static void check_register(struct test *t, const struct function *f, int64_t result) {
    if (f == &functions[DATE])
        return;
    expect(t, t->lent.reg.length >= REGISTER_BYTES || result == 1, f, "a short register is not 1");
    if (f->writes && result == 0)
        expect(t, unchanged_from(&t->lent.reg, REGISTER_BYTES), f,
               "bytes past the register changed");
    else
        expect(t, unchanged_from(&t->lent.reg, 0), f, "the register changed");
}

static void check_others(struct test *t, const struct function *f, int64_t result) {
    if (f == &functions[REQUEST])
        expect(t, unchanged_from(&t->lent.holidays, 0), f, "the holidays changed");
    if (f != &functions[ALLOCATE])
        return;
    expect(t, t->lent.table.length >= SHARES_BYTES || result == 1 || result == 2, f,
           "a short answer table is neither 1 nor 2");
    expect(t, unchanged_from(&t->lent.table, result == 0 ? SHARES_BYTES : 0), f,
           "the answer table changed where it may not");
}

/* The refusal that the lent bytes get. */
static int64_t judge_trial(const struct test *t, int64_t count, bool sound) {
    if (!sound)
        return 1;
    if (t->lent.answer.length < PETLUMAS_TRIAL_ANSWER_BYTES)
        return 2;
    return judge_batch(count, t->lent.notices.length, t->lent.answers.length);
}

static void check_trial(struct test *t, int64_t count, bool sound, int64_t result) {
    const struct function *f = &functions[TRIAL];
    uint8_t expected[8 * ANSWER_NUMBERS * NOTICES];
    int64_t refusal = judge_trial(t, count, sound);
    size_t notices = refusal == 0 ? (size_t)count : 0;
    size_t given = 8 * ANSWER_NUMBERS * notices;
    expect(t, result == refusal, f, "not the refusal that the bytes get");
    expect(t, unchanged_from(&t->lent.notices, 0), f, "the notices changed");
    expect(t, unchanged_from(&t->lent.answers, given), f, "the answers changed where they may not");
    if (refusal != 0)
        return;
    memcpy(t->copy, t->lent.reg.before, REGISTER_BYTES);
    struct counted counted = enter_batch(t->copy, t->lent.notices.before, expected, notices);
    expect(t, memcmp(t->lent.answers.at, expected, given) == 0, f, "not what the batch answers");
    expect(t, get_number(t->lent.answer.at, 1) == counted.most, f, "not the most records");
    expect(t, get_number(t->lent.answer.at, 2) == counted.removed, f, "not the total removed");
}

static void check_save(struct test *t, int64_t state, bool sound, int64_t result) {
    const struct function *f = &functions[SAVE];
    bool good = 1 <= state && state <= 4 && t->lent.image.length >= IMAGE_BYTES &&
                t->lent.answer.length >= 8;
    expect(t, result == (!sound ? 1 : good ? 0 : 2), f, "not the refusal that the bytes get");
    expect(t, unchanged_from(&t->lent.image, result == 0 ? IMAGE_BYTES : 0), f,
           "the image changed where it may not");
    if (result != 0)
        return;
    write_image(t->copy, t->lent.reg.before, (uint32_t)state);
    expect(t, memcmp(t->lent.image.at, t->copy, IMAGE_BYTES) == 0, f, "not the register's image");
}

/* The refusal that the lent bytes get; the image's register is copied where it is looked at. */
static int64_t judge_restore(struct test *t, int64_t state) {
    if (t->lent.reg.length < REGISTER_BYTES)
        return 1;
    if (t->lent.answer.length < 8)
        return 2;
    int64_t refusal = judge_image(t->lent.image.before, t->lent.image.length, state);
    if (refusal != 0)
        return refusal;
    read_image(t->lent.image.before, t->copy);
    return is_sound(t->copy, REGISTER_BYTES) ? 0 : 1;
}

static void check_restore(struct test *t, int64_t state, int64_t result) {
    const struct function *f = &functions[RESTORE];
    expect(t, result == judge_restore(t, state), f, "not the refusal that the bytes get");
    expect(t, unchanged_from(&t->lent.image, 0), f, "the image changed");
    if (result == 0)
        expect(t, memcmp(t->lent.reg.at, t->copy, REGISTER_BYTES) == 0, f,
               "not the image's register");
}

/* The refusal that the lent bytes get, in the order of document 02. */
static int64_t judge_convert(const struct test *t, bool sound) {
    if (!sound || t->lent.other.length < REGISTER_BYTES)
        return 1;
    return t->lent.answer.length < 8 ? 2 : judge_room(t->lent.reg.before);
}

static void check_convert(struct test *t, bool sound, int64_t result) {
    const struct function *f = &functions[CONVERT];
    expect(t, result == judge_convert(t, sound), f, "not the refusal that the bytes get");
    expect(t, unchanged_from(&t->lent.other, result == 0 ? REGISTER_BYTES : 0), f,
           "the other register changed where it may not");
    if (result != 0)
        return;
    write_converted(t->copy, t->lent.reg.before);
    expect(t, memcmp(t->lent.other.at, t->copy, REGISTER_BYTES) == 0, f,
           "not the register in the other edition");
    expect(t, is_sound(t->lent.other.at, t->lent.other.length), f, "an unsound register was made");
}

/* ---- cases */

/* The current register, as it is, with a few numbers damaged, or all noise. */
static void make_work(struct test *t) {
    memcpy(t->work, t->chance.reg, REGISTER_BYTES);
    memset(t->work + REGISTER_BYTES, (int)below(&t->chance, 256), PAST_BYTES);
    if (one_in(&t->chance, 100))
        for (size_t k = 0; k < REGISTER_BYTES; k++)
            t->work[k] = (uint8_t)below(&t->chance, 256);
    else if (!one_in(&t->chance, 3))
        for (uint64_t k = below(&t->chance, 4); k > 0; k--)
            damage_number(&t->chance, t->work);
}

/* The case's register, or for restore any bytes, so that it shows what is not written. */
static void lend_register(struct test *t, bool restores, size_t length) {
    bool any = restores && one_in(&t->chance, 2);
    if (any)
        memset(t->copy, (int)below(&t->chance, 256), length);
    lend(&t->chance, &t->lent.reg, any ? t->copy : t->work, length);
}

/* The first number of the call is a trial's count, and the state of a save or a restore. */
static void lend_buffers(struct test *t, const struct function *f, size_t length, int64_t first) {
    lend_register(t, f == &functions[RESTORE], length);
    lend_filled(t, &t->lent.answer, choose_length(t, 8 * f->fields));
    lend_filled(t, &t->lent.table, choose_length(t, SHARES_BYTES));
    lend_holidays(t);
    if (f == &functions[TRIAL])
        lend_batch(t, first);
    if (f == &functions[SAVE] || f == &functions[RESTORE])
        lend_image(t, f == &functions[RESTORE], first);
    if (f == &functions[CONVERT])
        lend_other(t);
}

static void take_all_back(struct test *t) {
    take_back(&t->lent.reg);
    take_back(&t->lent.answer);
    take_back(&t->lent.notices);
    take_back(&t->lent.answers);
    take_back(&t->lent.table);
    take_back(&t->lent.holidays);
    take_back(&t->lent.image);
    take_back(&t->lent.other);
}

/* Whether the soundness of the lent register is asked for. */
static bool asks_sound(const struct function *f) {
    return f != &functions[FRESH] && f != &functions[RESTORE] && f != &functions[DATE];
}

/* The register that later calls go on in: what a notice left, and at times what a conversion made.
   Fresh and restore would undo what other calls entered. */
static void go_on(struct test *t, const struct function *f) {
    if (f->writes && asks_sound(f))
        memcpy(t->chance.reg, t->lent.reg.at, REGISTER_BYTES);
    if (f == &functions[CONVERT] && one_in(&t->chance, 8))
        memcpy(t->chance.reg, t->lent.other.at, REGISTER_BYTES);
}

static void check_call(struct test *t, const struct function *f, const int64_t *args, bool sound,
                       int64_t result) {
    expect(t, 0 <= result && result < REFUSALS, f, "no such refusal");
    check_answer(t, f, result);
    check_register(t, f, result);
    check_others(t, f, result);
    if (f == &functions[TRIAL])
        check_trial(t, args[0], sound, result);
    if (f == &functions[SAVE])
        check_save(t, args[0], sound, result);
    if (f == &functions[RESTORE])
        check_restore(t, args[0], result);
    if (f == &functions[CONVERT])
        check_convert(t, sound, result);
    else if (asks_sound(f))
        expect(t, (result == 1) == !sound, f, "1 is not for what is short or unsound alone");
    if (f->writes && result == 0)
        expect(t, is_sound(t->lent.reg.at, t->lent.reg.length), f, "an unsound register was left");
}

static void try_function(struct test *t, const struct function *f, size_t length, bool sound,
                         uint64_t *refusals) {
    int64_t args[ARGS_MOST] = {0};
    f->choose(&t->chance, args);
    lend_buffers(t, f, length, args[0]);
    int64_t result = f->call(&t->lent, args);
    t->calls++;
    check_call(t, f, args, sound, result);
    if (0 <= result && result < REFUSALS)
        refusals[result]++;
    if (result == 0)
        go_on(t, f);
    take_all_back(t);
}

/* The editions take turns. */
static void start_list(struct test *t) {
    memcpy(t->earlier, t->chance.reg, REGISTER_BYTES);
    start_register(&t->chance, (int64_t)(t->number / CASES_PER_REGISTER % EDITIONS));
}

static void run_case(struct test *t, uint64_t refusals[FUNCTIONS][REFUSALS]) {
    if (t->number % CASES_PER_REGISTER == 0)
        start_list(t);
    make_work(t);
    size_t length = choose_register_length(t);
    bool sound = is_sound(t->work, length);
    for (size_t k = 0; k < FUNCTIONS; k++)
        try_function(t, &functions[k], length, sound, refusals[k]);
}

static void print_counts(uint64_t refusals[FUNCTIONS][REFUSALS]) {
    printf("%-9s", "");
    for (size_t r = 0; r < REFUSALS; r++)
        printf(" %6zu", r);
    for (size_t k = 0; k < FUNCTIONS; k++) {
        printf("\n%-9s", functions[k].name);
        for (size_t r = 0; r < REFUSALS; r++)
            printf(" %6" PRIu64, refusals[k][r]);
    }
    putchar('\n');
}

int main(int argc, char **argv) {
    static struct test test; /* large for a stack */
    uint64_t refusals[FUNCTIONS][REFUSALS] = {{0}};
    uint64_t cases = argc > 1 ? strtoull(argv[1], NULL, 10) : 10000;
    uint64_t seed = argc > 2 ? strtoull(argv[2], NULL, 10) : 20790707;
    test.chance.random = seed != 0 ? seed : 1; /* the generator stays at 0 */
    printf("seed %" PRIu64 "\n", seed);
    fflush(stdout); /* an access outside a buffer may end the program */
    make_arena(&test.lent.reg);
    make_arena(&test.lent.answer);
    make_arena(&test.lent.notices);
    make_arena(&test.lent.answers);
    make_arena(&test.lent.table);
    make_arena(&test.lent.holidays);
    make_arena(&test.lent.image);
    make_arena(&test.lent.other);
    for (test.number = 0; test.number < cases && test.failures < 20; test.number++)
        run_case(&test, refusals);
    print_counts(refusals);
    printf("%" PRIu64 " cases, %" PRIu64 " calls, %" PRIu64 " failures\n", test.number, test.calls,
           test.failures);
    return test.failures != 0;
}
