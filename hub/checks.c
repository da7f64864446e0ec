#include "checks.h"

#include <inttypes.h>
#include <stdio.h>
#include <stdlib.h>

static uint64_t checks;

void expect(int64_t found, int64_t expected, const char *what) {
    checks++;
    if (found == expected)
        return;
    fprintf(stderr, "%s: %" PRId64 ", not %" PRId64 "\n", what, found, expected);
    exit(1);
}

void print_checks(const char *program) {
    printf("%s: %" PRIu64 " checks hold\n", program, checks);
}
