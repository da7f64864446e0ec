#include "sides.h"

void decode(const uint8_t *bytes, int64_t *numbers, size_t count) {
    for (size_t k = 0; k < count; k++)
        numbers[k] = get_number(bytes, k);
}

int64_t library_energy(uint8_t *bytes, uint8_t *answer, const int64_t *a) {
    return petlumas_energy(bytes, BYTES, answer, PETLUMAS_ENERGY_ANSWER_BYTES, a[0], a[1], a[2],
                           a[3], a[4], a[5]);
}

struct plain_energy c_energy(int64_t *table, const int64_t *a) {
    return plain_energy(table, REGISTER_NUMBERS, a[0], a[1], a[2], a[3], a[4], a[5]);
}

int64_t library_trial(const uint8_t *bytes, uint8_t *answer, const uint8_t *notices,
                      uint8_t *answers, const int64_t *a) {
    return petlumas_trial(bytes, BYTES, answer, PETLUMAS_TRIAL_ANSWER_BYTES, notices,
                          PETLUMAS_TRIAL_NOTICE_BYTES * NOTICES, answers,
                          PETLUMAS_ENERGY_ANSWER_BYTES * NOTICES, a[0]);
}

struct plain_trial c_trial(const int64_t *table, const int64_t *notices, int64_t *answers,
                           const int64_t *a) {
    return plain_trial(table, REGISTER_NUMBERS, notices, NOTICE_NUMBERS * NOTICES, answers,
                       ANSWER_NUMBERS * NOTICES, a[0]);
}

int64_t library_correct(uint8_t *bytes, uint8_t *answer, const int64_t *a) {
    return petlumas_correct(bytes, BYTES, answer, PETLUMAS_CORRECT_ANSWER_BYTES, a[0], a[1], a[2],
                            a[3]);
}

struct plain_correction c_correct(int64_t *table, const int64_t *a) {
    return plain_correct(table, REGISTER_NUMBERS, a[0], a[1], a[2], a[3]);
}

int64_t library_account(const uint8_t *bytes, uint8_t *answer, const int64_t *a) {
    return petlumas_account(bytes, BYTES, answer, PETLUMAS_ACCOUNT_ANSWER_BYTES, a[0], a[1], a[2]);
}

struct plain_account c_account(const int64_t *table, const int64_t *a) {
    return plain_account(table, REGISTER_NUMBERS, a[0], a[1], a[2]);
}

struct plain_account c_account_by_days(const int64_t *table, const int64_t *a) {
    return plain_account_by_days(table, REGISTER_NUMBERS, a[0], a[1], a[2]);
}

int64_t library_allocate(const uint8_t *bytes, uint8_t *answer, uint8_t *shares, const int64_t *a) {
    return petlumas_allocate(bytes, BYTES, answer, PETLUMAS_ALLOCATE_ANSWER_BYTES, shares,
                             PETLUMAS_ALLOCATE_TABLE_BYTES, a[0], a[1], a[2], a[3], a[4], a[5]);
}

struct plain_allocation c_allocate(const int64_t *table, int64_t *shares, const int64_t *a) {
    return plain_allocate(table, REGISTER_NUMBERS, shares, SHARES, a[0], a[1], a[2], a[3], a[4],
                          a[5]);
}

int64_t library_save(const uint8_t *bytes, uint8_t *answer, uint8_t *image, const int64_t *a) {
    return petlumas_save(bytes, BYTES, answer, PETLUMAS_SAVE_ANSWER_BYTES, image, IMAGE_BYTES,
                         a[0]);
}

int64_t c_save(const int64_t *table, uint8_t *image, const int64_t *a) {
    return plain_save(table, REGISTER_NUMBERS, image, IMAGE_BYTES, a[0]);
}

int64_t library_restore(uint8_t *bytes, uint8_t *answer, const uint8_t *image, const int64_t *a) {
    return petlumas_restore(bytes, BYTES, answer, PETLUMAS_RESTORE_ANSWER_BYTES, image, IMAGE_BYTES,
                            a[0]);
}

int64_t c_restore(int64_t *table, const uint8_t *image, const int64_t *a) {
    return plain_restore(table, REGISTER_NUMBERS, image, IMAGE_BYTES, a[0]);
}

int64_t library_convert(const uint8_t *bytes, uint8_t *answer, uint8_t *other) {
    return petlumas_convert(bytes, BYTES, answer, PETLUMAS_CONVERT_ANSWER_BYTES, other, BYTES);
}

int64_t c_convert(const int64_t *table, int64_t *other) {
    return plain_convert(table, REGISTER_NUMBERS, other, REGISTER_NUMBERS);
}
