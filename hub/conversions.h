/* Registers in the other edition, judged and written by plain loops, for tests. */
#ifndef HUB_CONVERSIONS_H
#define HUB_CONVERSIONS_H

#include <stddef.h>
#include <stdint.h>

/* 22 if the other edition has no room for this sound register, else 0. */
int64_t judge_room(const uint8_t *reg);

/* This sound register in the other edition, which has room for it: PETLUMAS_REGISTER_BYTES bytes.
 */
void write_converted(uint8_t *other, const uint8_t *reg);

#endif
