#include "dice.h"

#include "random.h"
#include "real.h"

static series64 dice;

void throw_from(uint64_t seed)
{
    dice.state = seed;
}

uint64_t roll(void)
{
    return next(&dice);
}

uint64_t below(uint64_t n)
{
    return roll() % n;
}

bool one_in(uint64_t n)
{
    return below(n) == 0;
}

double uniform(double a, double b)
{
    return between(&dice, a, b);
}

double scaled(int lo, int hi)
{
    uint64_t exponent = (uint64_t)(1023 + lo) + below((uint64_t)(hi - lo));
    return of_bits(exponent << 52 | roll() >> 12);
}

double either_sign(double x)
{
    return one_in(2) ? x : -x;
}

/* Numbers beside each other, and odd ones. */

int64_t key_of(double x)
{
    uint64_t bits = bits_of(x);
    return bits & sign_bit ? -1 - (int64_t)(bits & ~sign_bit) : (int64_t)bits;
}

double of_key(int64_t key)
{
    return of_bits(key < 0 ? sign_bit | (uint64_t)(-1 - key) : (uint64_t)key);
}

int64_t beside(void)
{
    return (int64_t)below(3) - 1;
}

double near(double limit)
{
    return of_key(key_of(limit) + beside());
}

double oddity(void)
{
    static const uint64_t odd[] = {
        0x0000000000000000, 0x0000000000000001, 0x000FFFFFFFFFFFFF, 0x0010000000000000, /* 0, subnormals */
        0x3FF0000000000000, 0x7FEFFFFFFFFFFFFF, 0x7FF0000000000000,                     /* 1, largest, infinity */
        0x7FF0000000000001, 0x7FF8000000000000, 0x7FFFFFFFFFFFFFFF,                     /* NaN */
    };
    uint64_t bits = one_in(6) ? roll() : odd[below(sizeof odd / sizeof *odd)];
    return of_bits(one_in(2) ? bits : bits ^ sign_bit);
}
