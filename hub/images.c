#include "images.h"

#include <string.h>

/* Where a block has its bytes. */
enum {
    BLOCKS = 124,
    NUMBERS = 62,
    NUMBERS_BYTES = 8 * NUMBERS,
    STATE_AT = 496,
    BLOCK_AT = 500, /* its own number */
    CHECK_AT = 504,
    BLOCK_BYTES = 512,
};

/* Little endian. */
static uint64_t get_bytes(const uint8_t *at, size_t count) {
    uint64_t n = 0;
    while (count > 0)
        n = n << 8 | at[--count];
    return n;
}

static void put_bytes(uint8_t *at, size_t count, uint64_t n) {
    for (size_t k = 0; k < count; k++, n >>= 8)
        at[k] = (uint8_t)(n & 0xff);
}

static uint64_t block_check(const uint8_t *block) {
    uint64_t sum = 0;
    uint64_t sums = 0;
    for (size_t at = 0; at < CHECK_AT; at += 8) {
        sum += get_bytes(block + at, 8);
        sums += sum;
    }
    return sums;
}

static void put_check(uint8_t *block) {
    put_bytes(block + CHECK_AT, 8, block_check(block));
}

void write_image(uint8_t *image, const uint8_t *reg, uint32_t state) {
    for (size_t b = 0; b < BLOCKS; b++) {
        uint8_t *block = image + BLOCK_BYTES * b;
        memcpy(block, reg + NUMBERS_BYTES * b, NUMBERS_BYTES);
        put_bytes(block + STATE_AT, 4, state);
        put_bytes(block + BLOCK_AT, 4, b);
        put_check(block);
    }
}

void read_image(const uint8_t *image, uint8_t *reg) {
    for (size_t b = 0; b < BLOCKS; b++)
        memcpy(reg + NUMBERS_BYTES * b, image + BLOCK_BYTES * b, NUMBERS_BYTES);
}

int64_t judge_image(const uint8_t *image, size_t length, int64_t state) {
    if (state < 1 || state > 4 || length < PETLUMAS_IMAGE_BYTES)
        return 2;
    for (size_t b = 0; b < BLOCKS; b++) {
        const uint8_t *block = image + BLOCK_BYTES * b;
        if (get_bytes(block + CHECK_AT, 8) != block_check(block) ||
            get_bytes(block + BLOCK_AT, 4) != b)
            return 17;
    }
    for (size_t b = 0; b < BLOCKS; b++)
        if (get_bytes(image + BLOCK_BYTES * b + STATE_AT, 4) != (uint64_t)state)
            return 18;
    return 0;
}

/* ---- damage */

static void flip_bit(struct chance *c, uint8_t *bytes, uint64_t count) {
    uint64_t byte = below(c, count);
    bytes[byte] ^= (uint8_t)(1U << below(c, 8));
}

static void set_number(struct chance *c, uint8_t *block) {
    uint8_t *at = block + 8 * below(c, NUMBERS);
    put_bytes(at, 8, (uint64_t)wild(c));
}

/* Three numbers in a row, such that the check does not see it. */
static void change_unseen(struct chance *c, uint8_t *block) {
    uint8_t *at = block + 8 * below(c, NUMBERS - 2);
    uint64_t change = below(c, 3) + 1;
    put_bytes(at, 8, get_bytes(at, 8) + change);
    put_bytes(at + 8, 8, get_bytes(at + 8, 8) - 2 * change);
    put_bytes(at + 16, 8, get_bytes(at + 16, 8) + change);
}

static void swap_blocks(uint8_t *one, uint8_t *other) {
    uint8_t kept[BLOCK_BYTES];
    memcpy(kept, one, BLOCK_BYTES);
    memmove(one, other, BLOCK_BYTES);
    memcpy(other, kept, BLOCK_BYTES);
}

static uint8_t *any_block(struct chance *c, uint8_t *image) {
    return image + BLOCK_BYTES * below(c, BLOCKS);
}

void damage_image(struct chance *c, uint8_t *image) {
    uint8_t *block = any_block(c, image);
    switch (below(c, 8)) {
    case 0:
        flip_bit(c, block, BLOCK_BYTES);
        return;
    case 1:
        flip_bit(c, block + CHECK_AT, BLOCK_BYTES - CHECK_AT);
        return;
    case 2:
        change_unseen(c, block);
        return;
    case 3:
        swap_blocks(block, any_block(c, image));
        return;
    case 4:
        flip_bit(c, block + BLOCK_AT, CHECK_AT - BLOCK_AT);
        break;
    case 5:
        flip_bit(c, block + STATE_AT, BLOCK_AT - STATE_AT);
        break;
    case 6:
        flip_bit(c, block, NUMBERS_BYTES);
        break;
    default:
        set_number(c, block);
    }
    if (!one_in(c, 4))
        put_check(block);
}
