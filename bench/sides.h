/* The two sides: the library, which works on bytes, and plain C, on a table of numbers. Each has a
   call in the same form, with its numbers in the order of the library's function. */
#ifndef BENCH_SIDES_H
#define BENCH_SIDES_H

#include "chance.h"
#include "places.h"
#include "plain.h"
#include "words.h"

enum { BYTES = PETLUMAS_REGISTER_BYTES, IMAGE_BYTES = PETLUMAS_IMAGE_BYTES };

/* One register on both sides, an image of it, what it is converted into, and a trial's batch and
   answers, with room for as many notices as it takes. */
struct both {
    uint8_t bytes[BYTES], other_bytes[BYTES];
    int64_t table[REGISTER_NUMBERS], other_table[REGISTER_NUMBERS];
    uint8_t library_image[IMAGE_BYTES], c_image[IMAGE_BYTES];
    uint8_t notice_bytes[8 * NOTICE_NUMBERS * NOTICES], answer_bytes[8 * ANSWER_NUMBERS * NOTICES];
    int64_t notices[NOTICE_NUMBERS * NOTICES], answers[ANSWER_NUMBERS * NOTICES];
};

void decode(const uint8_t *bytes, int64_t *numbers, size_t count);

int64_t library_energy(uint8_t *bytes, uint8_t *answer, const int64_t *a);
struct plain_energy c_energy(int64_t *table, const int64_t *a);

int64_t library_trial(const uint8_t *bytes, uint8_t *answer, const uint8_t *notices,
                      uint8_t *answers, const int64_t *a);
struct plain_trial c_trial(const int64_t *table, const int64_t *notices, int64_t *answers,
                           const int64_t *a);

int64_t library_correct(uint8_t *bytes, uint8_t *answer, const int64_t *a);
struct plain_correction c_correct(int64_t *table, const int64_t *a);

int64_t library_account(const uint8_t *bytes, uint8_t *answer, const int64_t *a);
struct plain_account c_account(const int64_t *table, const int64_t *a);
struct plain_account c_account_by_days(const int64_t *table, const int64_t *a);

int64_t library_allocate(const uint8_t *bytes, uint8_t *answer, uint8_t *shares, const int64_t *a);
struct plain_allocation c_allocate(const int64_t *table, int64_t *shares, const int64_t *a);

int64_t library_save(const uint8_t *bytes, uint8_t *answer, uint8_t *image, const int64_t *a);
int64_t c_save(const int64_t *table, uint8_t *image, const int64_t *a);

int64_t library_restore(uint8_t *bytes, uint8_t *answer, const uint8_t *image, const int64_t *a);
int64_t c_restore(int64_t *table, const uint8_t *image, const int64_t *a);

int64_t library_convert(const uint8_t *bytes, uint8_t *answer, uint8_t *other);
int64_t c_convert(const int64_t *table, int64_t *other);

#endif
