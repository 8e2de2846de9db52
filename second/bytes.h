/* Little-endian fields of a record. */
#ifndef BYTES_H
#define BYTES_H

#include "real.h"

static inline uint64_t little_endian(const uint8_t *at, int bytes)
{
    uint64_t n = 0;
    for (int k = bytes; k-- > 0;)
        n = n << 8 | at[k];
    return n;
}

static inline void put_little_endian(uint8_t *at, int bytes, uint64_t n)
{
    for (int k = 0; k < bytes; k++)
        at[k] = (uint8_t)(n >> 8 * k);
}

#endif
