/* Words of f64. A range test here says what must hold, so that a NaN fails it. */
#ifndef REAL_H
#define REAL_H

#include <float.h>
#include <math.h>
#include <stdint.h>
#include <string.h>

_Static_assert(FLT_EVAL_METHOD == 0 && DBL_MANT_DIG == 53, "every operation rounds once, to f64");

static const uint64_t sign_bit = UINT64_C(1) << 63;

static inline uint64_t bits_of(double x)
{
    uint64_t bits;
    memcpy(&bits, &x, sizeof bits);
    return bits;
}

static inline double of_bits(uint64_t bits)
{
    double x;
    memcpy(&x, &bits, sizeof x);
    return x;
}

#endif
