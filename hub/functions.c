#include "functions.h"

static int64_t call_fresh(struct buffers *b, const int64_t *a) {
    return petlumas_fresh(b->reg.at, b->reg.length, b->answer.at, b->answer.length, a[0], a[1],
                          a[2]);
}

static int64_t call_open(struct buffers *b, const int64_t *a) {
    return petlumas_open(b->reg.at, b->reg.length, b->answer.at, b->answer.length, a[0], a[1], a[2],
                         a[3], a[4], a[5], a[6]);
}

static int64_t call_energy(struct buffers *b, const int64_t *a) {
    return petlumas_energy(b->reg.at, b->reg.length, b->answer.at, b->answer.length, a[0], a[1],
                           a[2], a[3], a[4], a[5]);
}

static int64_t call_trial(struct buffers *b, const int64_t *a) {
    return petlumas_trial(b->reg.at, b->reg.length, b->answer.at, b->answer.length, b->notices.at,
                          b->notices.length, b->answers.at, b->answers.length, a[0]);
}

static int64_t call_status(struct buffers *b, const int64_t *a) {
    return petlumas_status(b->reg.at, b->reg.length, b->answer.at, b->answer.length, a[0], a[1],
                           a[2]);
}

static int64_t call_request(struct buffers *b, const int64_t *a) {
    return petlumas_request(b->reg.at, b->reg.length, b->answer.at, b->answer.length,
                            b->holidays.at, b->holidays.length, a[0], a[1], a[2], a[3]);
}

static int64_t call_withdraw(struct buffers *b, const int64_t *a) {
    return petlumas_withdraw(b->reg.at, b->reg.length, b->answer.at, b->answer.length, a[0], a[1]);
}

static int64_t call_correct(struct buffers *b, const int64_t *a) {
    return petlumas_correct(b->reg.at, b->reg.length, b->answer.at, b->answer.length, a[0], a[1],
                            a[2], a[3]);
}

static int64_t call_account(struct buffers *b, const int64_t *a) {
    return petlumas_account(b->reg.at, b->reg.length, b->answer.at, b->answer.length, a[0], a[1],
                            a[2]);
}

static int64_t call_allocate(struct buffers *b, const int64_t *a) {
    return petlumas_allocate(b->reg.at, b->reg.length, b->answer.at, b->answer.length, b->table.at,
                             b->table.length, a[0], a[1], a[2], a[3], a[4], a[5]);
}

static int64_t call_save(struct buffers *b, const int64_t *a) {
    return petlumas_save(b->reg.at, b->reg.length, b->answer.at, b->answer.length, b->image.at,
                         b->image.length, a[0]);
}

static int64_t call_restore(struct buffers *b, const int64_t *a) {
    return petlumas_restore(b->reg.at, b->reg.length, b->answer.at, b->answer.length, b->image.at,
                            b->image.length, a[0]);
}

static int64_t call_convert(struct buffers *b, const int64_t *a) {
    (void)a;
    return petlumas_convert(b->reg.at, b->reg.length, b->answer.at, b->answer.length, b->other.at,
                            b->other.length);
}

static int64_t call_date(struct buffers *b, const int64_t *a) {
    return petlumas_date(b->answer.at, b->answer.length, a[0], a[1], a[2]);
}

/* A conversion has no numbers. */
static void choose_nothing(struct chance *c, int64_t *args) {
    (void)c;
    (void)args;
}

const struct function functions[FUNCTIONS] = {
    [FRESH] = {"fresh", 1, true, choose_fresh, call_fresh},
    [OPEN] = {"open", 1, true, choose_open, call_open},
    [ENERGY] = {"energy", 5, true, choose_energy_notice, call_energy},
    [TRIAL] = {"trial", 3, false, choose_count, call_trial},
    [STATUS] = {"status", 1, true, choose_status, call_status},
    [REQUEST] = {"request", 3, true, choose_request, call_request},
    [WITHDRAW] = {"withdraw", 1, true, choose_withdraw, call_withdraw},
    [CORRECT] = {"correct", 17, true, choose_correct, call_correct},
    [ACCOUNT] = {"account", 2, false, choose_account, call_account},
    [ALLOCATE] = {"allocate", 18, false, choose_allocate, call_allocate},
    [SAVE] = {"save", 1, false, choose_state, call_save},
    [RESTORE] = {"restore", 1, true, choose_state, call_restore},
    [CONVERT] = {"convert", 1, false, choose_nothing, call_convert},
    [DATE] = {"date", 2, false, choose_date, call_date},
};

bool is_sound(const uint8_t *reg, size_t length) {
    uint8_t answer[PETLUMAS_ACCOUNT_ANSWER_BYTES];
    return petlumas_account(reg, length, answer, sizeof answer, 1, 0, 0) == 0;
}
