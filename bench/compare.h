/* Compares the library with plain C, call by call, and ends the program on unequal answers, tables
   or images. */
#ifndef BENCH_COMPARE_H
#define BENCH_COMPARE_H

#include <stdint.h>

/* In so many lists of calls of this length; the editions take turns. */
void compare(uint64_t seed, uint64_t lists, uint64_t length);

#endif
