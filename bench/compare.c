#include "compare.h"

#include "images.h"
#include "sides.h"

#include <inttypes.h>
#include <stdio.h>
#include <stdlib.h>
#include <string.h>

/* All calls, and those given of each. */
struct counts {
    uint64_t calls;
    uint64_t energies, trials, corrections, accounts, allocations, saves, restores, conversions;
};

struct compared {
    struct chance chance;
    struct both both;
    struct both restored; /* also over one of the other edition */
    struct counts *counts;
};

static void expect(bool holds, const char *what, const int64_t *args) {
    if (holds)
        return;
    fprintf(stderr, "%s: unequal for", what);
    for (size_t k = 0; k < ARGS_MOST; k++)
        fprintf(stderr, " %" PRId64, args[k]);
    fputc('\n', stderr);
    exit(1);
}

static bool same_numbers(const uint8_t *bytes, const int64_t *numbers, size_t count) {
    for (size_t k = 0; k < count; k++)
        if (get_number(bytes, k) != numbers[k])
            return false;
    return true;
}

static bool same_table(const struct both *both) {
    return same_numbers(both->bytes, both->table, REGISTER_NUMBERS);
}

static void compare_energy(struct compared *c, const int64_t *a) {
    uint8_t answer[PETLUMAS_ENERGY_ANSWER_BYTES];
    int64_t result = library_energy(c->both.bytes, answer, a);
    struct plain_energy plain = c_energy(c->both.table, a);
    expect(result == plain.refusal && get_number(answer, 0) == plain.refusal &&
               get_number(answer, 1) == plain.which && get_number(answer, 2) == plain.removed &&
               get_number(answer, 3) == plain.user && get_number(answer, 4) == plain.lapsed,
           "energy", a);
    expect(same_table(&c->both), "energy, table", a);
    c->counts->calls++;
    c->counts->energies += result == 0;
}

/* Any notices past the count and any bytes for answers. */
static void make_batch(struct chance *c, struct both *both, int64_t count) {
    memset(both->notice_bytes, (int)below(c, 256), sizeof both->notice_bytes);
    if (0 <= count && count <= NOTICES)
        choose_batch(c, both->notice_bytes, (size_t)count);
    decode(both->notice_bytes, both->notices, NOTICE_NUMBERS * NOTICES);
    memset(both->answer_bytes, (int)below(c, 256), sizeof both->answer_bytes);
    decode(both->answer_bytes, both->answers, ANSWER_NUMBERS * NOTICES);
}

static void compare_trial(struct compared *c, const int64_t *a) {
    struct both *both = &c->both;
    uint8_t answer[PETLUMAS_TRIAL_ANSWER_BYTES];
    make_batch(&c->chance, both, a[0]);
    int64_t result = library_trial(both->bytes, answer, both->notice_bytes, both->answer_bytes, a);
    struct plain_trial plain = c_trial(both->table, both->notices, both->answers, a);
    expect(result == plain.refusal && get_number(answer, 0) == plain.refusal &&
               get_number(answer, 1) == plain.most && get_number(answer, 2) == plain.removed,
           "trial", a);
    expect(same_numbers(both->answer_bytes, both->answers, ANSWER_NUMBERS * NOTICES),
           "trial, answers", a);
    expect(same_table(both), "trial, table", a);
    c->counts->calls++;
    c->counts->trials += result == 0;
}

static void compare_correct(struct compared *c, const int64_t *a) {
    uint8_t answer[PETLUMAS_CORRECT_ANSWER_BYTES];
    int64_t result = library_correct(c->both.bytes, answer, a);
    struct plain_correction plain = c_correct(c->both.table, a);
    bool same = result == plain.refusal && get_number(answer, 0) == plain.refusal;
    for (size_t k = 0; k < 16; k++)
        same = same && get_number(answer, 1 + k) == plain.flags[k];
    expect(same, "correct", a);
    expect(same_table(&c->both), "correct, table", a);
    c->counts->calls++;
    c->counts->corrections += result == 0;
}

static void compare_account(struct compared *c, const int64_t *a) {
    uint8_t answer[PETLUMAS_ACCOUNT_ANSWER_BYTES];
    int64_t result = library_account(c->both.bytes, answer, a);
    struct plain_account plain = c_account(c->both.table, a);
    expect(result == plain.refusal && get_number(answer, 0) == plain.refusal &&
               get_number(answer, 1) == plain.sum,
           "account", a);
    if (one_in(&c->chance, 10)) {
        struct plain_account by_days = c_account_by_days(c->both.table, a);
        expect(by_days.refusal == plain.refusal && by_days.sum == plain.sum, "account by days", a);
    }
    c->counts->calls++;
    c->counts->accounts += result == 0;
}

static void compare_allocate(struct compared *c, const int64_t *a) {
    uint8_t answer[PETLUMAS_ALLOCATE_ANSWER_BYTES];
    uint8_t library_shares[PETLUMAS_ALLOCATE_TABLE_BYTES] = {0};
    int64_t shares[SHARES] = {0};
    int64_t result = library_allocate(c->both.bytes, answer, library_shares, a);
    struct plain_allocation plain = c_allocate(c->both.table, shares, a);
    bool same = result == plain.refusal && get_number(answer, 0) == plain.refusal &&
                get_number(answer, 1) == plain.nsl;
    for (size_t k = 0; k < 16; k++)
        same = same && get_number(answer, 2 + k) == plain.totals[k];
    for (size_t k = 0; k < SHARES; k++)
        same = same && get_number(library_shares, k) == shares[k];
    expect(same, "allocate", a);
    c->counts->calls++;
    c->counts->allocations += result == 0;
}

static void compare_save(struct compared *c, const int64_t *a) {
    uint8_t answer[PETLUMAS_SAVE_ANSWER_BYTES];
    int64_t result = library_save(c->both.bytes, answer, c->both.library_image, a);
    int64_t plain = c_save(c->both.table, c->both.c_image, a);
    expect(result == plain && get_number(answer, 0) == plain, "save", a);
    expect(memcmp(c->both.library_image, c->both.c_image, IMAGE_BYTES) == 0, "save, image", a);
    c->counts->calls++;
    c->counts->saves += result == 0;
}

/* From the image saved last, often damaged, over the register restored last or any bytes. */
static void compare_restore(struct compared *c, const int64_t *a) {
    uint8_t answer[PETLUMAS_RESTORE_ANSWER_BYTES];
    uint8_t *image = c->restored.library_image;
    memcpy(image, c->both.library_image, IMAGE_BYTES);
    for (uint64_t damages = below(&c->chance, 3); damages > 0; damages--)
        damage_image(&c->chance, image);
    if (one_in(&c->chance, 4)) {
        memset(c->restored.bytes, (int)below(&c->chance, 256), BYTES);
        decode(c->restored.bytes, c->restored.table, REGISTER_NUMBERS);
    }
    int64_t result = library_restore(c->restored.bytes, answer, image, a);
    int64_t plain = c_restore(c->restored.table, image, a);
    expect(result == plain && get_number(answer, 0) == plain, "restore", a);
    expect(same_table(&c->restored), "restore, table", a);
    c->counts->calls++;
    c->counts->restores += result == 0;
}

/* Into what the conversion before left, or any bytes. */
static void compare_convert(struct compared *c) {
    const int64_t none[ARGS_MOST] = {0};
    uint8_t answer[PETLUMAS_CONVERT_ANSWER_BYTES];
    if (one_in(&c->chance, 4)) {
        memset(c->both.other_bytes, (int)below(&c->chance, 256), BYTES);
        decode(c->both.other_bytes, c->both.other_table, REGISTER_NUMBERS);
    }
    int64_t result = library_convert(c->both.bytes, answer, c->both.other_bytes);
    int64_t plain = c_convert(c->both.table, c->both.other_table);
    expect(result == plain && get_number(answer, 0) == plain, "convert", none);
    expect(same_table(&c->both), "convert, table", none);
    expect(same_numbers(c->both.other_bytes, c->both.other_table, REGISTER_NUMBERS),
           "convert, other table", none);
    c->counts->calls++;
    c->counts->conversions += result == 0;
}

/* These calls on the register that arguments are chosen for, or on a damaged copy of it. */
static void compare_calls(struct compared *c, uint64_t damages) {
    int64_t args[ARGS_MOST] = {0};
    memcpy(c->both.bytes, c->chance.reg, BYTES);
    for (; damages > 0; damages--)
        damage_number(&c->chance, c->both.bytes);
    decode(c->both.bytes, c->both.table, REGISTER_NUMBERS);
    choose_state(&c->chance, args);
    compare_save(c, args);
    if (one_in(&c->chance, 8))
        choose_state(&c->chance, args);
    compare_restore(c, args);
    compare_convert(c);
    choose_account(&c->chance, args);
    compare_account(c, args);
    choose_allocate(&c->chance, args);
    compare_allocate(c, args);
    choose_count(&c->chance, args);
    compare_trial(c, args);
    choose_energy_notice(&c->chance, args);
    compare_energy(c, args);
    choose_correct(&c->chance, args);
    if (one_in(&c->chance, 3))
        compare_correct(c, args);
}

/* Other notices, so that energy meets spans and requests. */
static void enter_others(struct compared *c) {
    int64_t a[ARGS_MOST];
    uint8_t answer[PETLUMAS_REQUEST_ANSWER_BYTES];
    uint8_t none[1] = {0};
    if (one_in(&c->chance, 4)) {
        choose_status(&c->chance, a);
        petlumas_status(c->chance.reg, BYTES, answer, sizeof answer, a[0], a[1], a[2]);
    } else {
        choose_request(&c->chance, a);
        petlumas_request(c->chance.reg, BYTES, answer, sizeof answer, none, 0, a[0], a[1], a[2],
                         a[3]);
    }
}

static void compare_list(struct compared *c, uint64_t length) {
    for (; length > 0; length--) {
        compare_calls(c, 0);
        memcpy(c->chance.reg, c->both.bytes, BYTES);
        compare_calls(c, 1 + below(&c->chance, 3));
        enter_others(c);
    }
}

static void print_counts(const char *edition, const struct counts *n) {
    printf("%s edition: equal answers, tables and images in %" PRIu64 " calls; given: %" PRIu64
           " energy, %" PRIu64 " trial, %" PRIu64 " correct, %" PRIu64 " account, %" PRIu64
           " allocate, %" PRIu64 " save, %" PRIu64 " restore, %" PRIu64 " convert\n",
           edition, n->calls, n->energies, n->trials, n->corrections, n->accounts, n->allocations,
           n->saves, n->restores, n->conversions);
}

void compare(uint64_t seed, uint64_t lists, uint64_t length) {
    static struct compared compared; /* large for a stack */
    struct counts counts[EDITIONS] = {{0}};
    compared.chance.random = seed != 0 ? seed : 1; /* the generator stays at 0 */
    for (uint64_t k = 0; k < lists; k++) {
        int64_t edition = (int64_t)(k % EDITIONS);
        compared.counts = &counts[edition];
        start_register(&compared.chance, edition);
        compare_list(&compared, length);
    }
    print_counts("standard", &counts[STANDARD]);
    print_counts("long", &counts[LONG]);
}
