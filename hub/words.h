/* Numbers as the library reads and writes them, 8 bytes, little endian, two's complement. */
#ifndef HUB_WORDS_H
#define HUB_WORDS_H

#include <stddef.h>
#include <stdint.h>

int64_t get_number(const uint8_t *bytes, size_t place);
void put_number(uint8_t *bytes, size_t place, int64_t number);

#endif
