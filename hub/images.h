/* The bytes of images, written, read and damaged by plain loops, for tests. */
#ifndef HUB_IMAGES_H
#define HUB_IMAGES_H

#include "chance.h"

/* The image of these PETLUMAS_REGISTER_BYTES bytes, be they a sound register or not. */
void write_image(uint8_t *image, const uint8_t *reg, uint32_t state);

/* The bytes of the register that an image holds. */
void read_image(const uint8_t *image, uint8_t *reg);

/* 2, 17 or 18, whichever comes first, or 0 for an intact image of this state. */
int64_t judge_image(const uint8_t *image, size_t length, int64_t state);

/* Changes a byte, a number, a state or block number or two blocks of an image, often so that every
   check is right. */
void damage_image(struct chance *c, uint8_t *image);

#endif
