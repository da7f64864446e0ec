/* Buffers to lend, for tests. One has its exact size on the heap, or it ends or begins at a page
   that nobody may touch, so that an access outside ends the program or is seen by a memory checker.
 */
#ifndef HUB_LENT_H
#define HUB_LENT_H

#include "chance.h"

enum { PAGE_BYTES = 4096, ARENA_BYTES = 16 * PAGE_BYTES };

struct lent {
    uint8_t *arena; /* ARENA_BYTES between two forbidden pages */
    uint8_t *block; /* on the heap, if any */
    uint8_t *at;
    size_t length;
    uint8_t before[ARENA_BYTES]; /* what it held when it was lent */
};

/* Once for each, before it is lent. */
void make_arena(struct lent *lent);

/* At most ARENA_BYTES bytes. */
void lend(struct chance *c, struct lent *lent, const uint8_t *bytes, size_t length);
void take_back(struct lent *lent);

bool unchanged_from(const struct lent *lent, size_t place);

#endif
