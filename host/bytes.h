/* Big-endian numbers in bytes. */
#ifndef BYTES_H
#define BYTES_H

#include <stddef.h>
#include <stdint.h>

static inline uint64_t number_at(const uint8_t *p, size_t width) {
    uint64_t n = 0;
    for (size_t i = 0; i < width; i++) n = n << 8 | p[i];
    return n;
}

static inline void put_number(uint8_t *p, size_t width, uint64_t n) {
    for (size_t i = width; i-- > 0; n >>= 8) p[i] = (uint8_t)n;
}

#endif
