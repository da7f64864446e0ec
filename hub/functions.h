/* The library's functions, each on lent buffers, for tests. */
#ifndef HUB_FUNCTIONS_H
#define HUB_FUNCTIONS_H

#include "lent.h"

/* What a call is lent; each function takes those that it has. */
struct buffers {
    struct lent reg, answer, notices, answers, table, holidays, image;
    struct lent other; /* for a register of the other edition */
};

struct function {
    const char *name;
    size_t fields; /* numbers of its answer */
    bool writes;   /* into the register */
    void (*choose)(struct chance *chance, int64_t *args);
    int64_t (*call)(struct buffers *buffers, const int64_t *args);
};

enum {
    FRESH,
    OPEN,
    ENERGY,
    TRIAL,
    STATUS,
    REQUEST,
    WITHDRAW,
    CORRECT,
    ACCOUNT,
    ALLOCATE,
    SAVE,
    RESTORE,
    CONVERT,
    DATE,
    FUNCTIONS
};

extern const struct function functions[FUNCTIONS];

/* Whether calls take this register: an account with good numbers is refused only for one that is
   short or unsound. */
bool is_sound(const uint8_t *reg, size_t length);

#endif
