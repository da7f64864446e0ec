/* What a program of boundary cases checks, for tests. */
#ifndef HUB_CHECKS_H
#define HUB_CHECKS_H

#include <stdint.h>

/* Ends the program where it found something else than what it expected. */
void expect(int64_t found, int64_t expected, const char *what);

/* Prints how many checks the program made. */
void print_checks(const char *program);

#endif
