/* The register in plain C, on a table of numbers: what the library is compared with and timed
   against. Nothing here is proved. */
#ifndef BENCH_PLAIN_H
#define BENCH_PLAIN_H

#include <stdbool.h>
#include <stddef.h>
#include <stdint.h>

struct plain_energy {
    int64_t refusal, which, removed, user, lapsed;
};

struct plain_trial {
    int64_t refusal, most, removed;
};

struct plain_correction {
    int64_t refusal, flags[16];
};

struct plain_account {
    int64_t refusal, sum;
};

struct plain_allocation {
    int64_t refusal, nsl, totals[16];
};

bool plain_sound(const int64_t *table, size_t length);

struct plain_energy plain_energy(int64_t *table, size_t length, int64_t mirn, int64_t start,
                                 int64_t end, int64_t energy, int64_t type, int64_t confirmed);

/* Six numbers a notice, five an answer. */
struct plain_trial plain_trial(const int64_t *table, size_t length, const int64_t *notices,
                               size_t notices_length, int64_t *answers, size_t answers_length,
                               int64_t count);

/* By days: whose each day is, before and after. */
struct plain_correction plain_correct(int64_t *table, size_t length, int64_t mirn, int64_t user,
                                      int64_t day, int64_t notice);

struct plain_account plain_account(const int64_t *table, size_t length, int64_t user, int64_t from,
                                   int64_t to);

/* The same sum, day by day. */
struct plain_account plain_account_by_days(const int64_t *table, size_t length, int64_t user,
                                           int64_t from, int64_t to);

struct plain_allocation plain_allocate(const int64_t *table, size_t length, int64_t *shares,
                                       size_t shares_length, int64_t gasday, int64_t from,
                                       int64_t to, int64_t tdq, int64_t uag, int64_t clp);

/* These give the refusal. */
int64_t plain_save(const int64_t *table, size_t length, uint8_t *image, size_t image_length,
                   int64_t state);
int64_t plain_restore(int64_t *table, size_t length, const uint8_t *image, size_t image_length,
                      int64_t state);
int64_t plain_convert(const int64_t *table, size_t length, int64_t *other, size_t other_length);

#endif
