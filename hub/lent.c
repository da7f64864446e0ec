#define _DEFAULT_SOURCE /* MAP_ANONYMOUS */
#include "lent.h"

#include <stdio.h>
#include <stdlib.h>
#include <string.h>
#include <sys/mman.h>

static void out_of_memory(void) {
    perror("lent");
    exit(2);
}

void make_arena(struct lent *lent) {
    uint8_t *pages =
        mmap(NULL, ARENA_BYTES + 2 * PAGE_BYTES, PROT_NONE, MAP_PRIVATE | MAP_ANONYMOUS, -1, 0);
    if (pages == MAP_FAILED)
        out_of_memory();
    lent->arena = pages + PAGE_BYTES;
    if (mprotect(lent->arena, ARENA_BYTES, PROT_READ | PROT_WRITE) != 0)
        out_of_memory();
}

void lend(struct chance *c, struct lent *lent, const uint8_t *bytes, size_t length) {
    uint64_t way = below(c, 3);
    lent->block = NULL;
    lent->length = length;
    if (way == 0) {
        size_t unused = length == 0 ? 1 : 0; /* so that the pointer is one */
        lent->block = malloc(length + unused);
        if (lent->block == NULL)
            out_of_memory();
        lent->at = lent->block + unused;
    } else {
        lent->at = way == 1 ? lent->arena : lent->arena + ARENA_BYTES - length;
    }
    memcpy(lent->before, bytes, length);
    memcpy(lent->at, bytes, length);
}

void take_back(struct lent *lent) {
    free(lent->block);
    lent->block = NULL;
}

bool unchanged_from(const struct lent *lent, size_t place) {
    return lent->length <= place ||
           memcmp(lent->at + place, lent->before + place, lent->length - place) == 0;
}
