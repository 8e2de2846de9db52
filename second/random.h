/* The pseudo-random series: splitmix64, and numbers made from it. */
#ifndef RANDOM_H
#define RANDOM_H

#include <stdint.h>

typedef struct { uint64_t state; } series64;

static inline uint64_t next(series64 *from)
{
    uint64_t z = from->state += 0x9E3779B97F4A7C15;
    z = (z ^ (z >> 30)) * 0xBF58476D1CE4E5B9;
    z = (z ^ (z >> 27)) * 0x94D049BB133111EB;
    return z ^ (z >> 31);
}

/* a + (b − a)·u, u a multiple of 2^-53 in 0 ≤ u < 1. */
static inline double between(series64 *from, double a, double b)
{
    return a + (b - a) * ((double)(next(from) >> 11) * 0x1p-53);
}

#endif
