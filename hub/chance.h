/* Registers, damage and arguments by chance, for tests. */
#ifndef HUB_CHANCE_H
#define HUB_CHANCE_H

#include "petlumas.h"

#include <stdbool.h>

enum { ARGS_MOST = 7 };

struct chance {
    uint64_t random;                      /* not 0 */
    uint8_t reg[PETLUMAS_REGISTER_BYTES]; /* sound; arguments are chosen for it */
};

uint64_t below(struct chance *c, uint64_t n);
bool one_in(struct chance *c, uint64_t n);
int64_t between(struct chance *c, int64_t least, int64_t most);

/* A number from near a limit, or any at all. */
int64_t wild(struct chance *c);

/* A register of an edition made by calls: many points with few rows, or few points that fill up. */
void start_register(struct chance *c, int64_t edition);

void damage_number(struct chance *c, uint8_t *reg);

/* The arguments of a call in the order of its function, mostly such that it is accepted. */
void choose_fresh(struct chance *c, int64_t *args);
void choose_open(struct chance *c, int64_t *args);
void choose_energy_notice(struct chance *c, int64_t *args);
void choose_count(struct chance *c, int64_t *args); /* of a trial's notices */
void choose_status(struct chance *c, int64_t *args);
void choose_request(struct chance *c, int64_t *args);
void choose_withdraw(struct chance *c, int64_t *args);
void choose_correct(struct chance *c, int64_t *args);
void choose_account(struct chance *c, int64_t *args);
void choose_allocate(struct chance *c, int64_t *args);
void choose_state(struct chance *c, int64_t *args); /* of save and restore */
void choose_date(struct chance *c, int64_t *args);

/* So many notices of a trial, each chosen for what those before it leave of the register, which
   itself stays as it is. */
void choose_batch(struct chance *c, uint8_t *notices, size_t count);

#endif
