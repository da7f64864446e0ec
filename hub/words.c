#include "words.h"

int64_t get_number(const uint8_t *bytes, size_t place) {
    uint64_t word = 0;
    for (size_t k = 8; k > 0; k--)
        word = word << 8 | bytes[8 * place + k - 1];
    /* A cast of what does not fit is left to the compiler, so negative numbers take another way. */
    return word <= INT64_MAX ? (int64_t)word : -1 - (int64_t)~word;
}

void put_number(uint8_t *bytes, size_t place, int64_t number) {
    uint64_t word = (uint64_t)number;
    for (size_t k = 0; k < 8; k++) {
        bytes[8 * place + k] = (uint8_t)(word & 0xff);
        word >>= 8;
    }
}
