/* The thumbwheel's table, worked out in whole numbers. */
#include "sight.h"

#include <stdbool.h>
#include <stdlib.h>

typedef unsigned __int128 wide;

enum { TENTHS = 900, TURN = 3600, PLACES = 60, ENTRY_PLACES = 30 };

/* arctan(1/n)·2^100 by its series. */
static wide arctan_of_inverse(unsigned n)
{
    wide power = ((wide)1 << 100) / n, sum = 0;
    for (unsigned k = 0; power > 0; k++, power /= (wide)n * n)
        sum = k % 2 == 0 ? sum + power / (2 * k + 1) : sum - power / (2 * k + 1);
    return sum;
}

/* π·2^100, by Machin. */
static wide pi(void)
{
    return 16 * arctan_of_inverse(5) - 4 * arctan_of_inverse(239);
}

/* sin(x)·2^60 of x·2^60, x in 0..π/2, by its series. */
static wide sine_of_fixed(wide x)
{
    wide square = x * x >> PLACES, term = x, plus = 0, minus = 0;
    for (unsigned k = 1; term > 0; k += 2) {
        *(k % 4 == 1 ? &plus : &minus) += term;
        term = (term * square >> PLACES) / ((k + 1) * (k + 2));
    }
    return plus - minus;
}

/* To nearest; a fraction so near to a half that the last places could turn it is none that occurs. */
static int64_t to_nearest(wide fixed)
{
    const int cut = PLACES - ENTRY_PLACES;
    const int64_t half = INT64_C(1) << (cut - 1), rest = (int64_t)(fixed & (((wide)1 << cut) - 1));
    if (llabs(rest - half) < 1 << 10)
        abort();
    return (int64_t)(fixed >> cut) + (rest > half);
}

/* S(k): the sine of k tenths of a degree, times 2^30, to nearest. */
static int64_t entry(uint64_t k)
{
    static int64_t table[TENTHS + 1];
    static bool made;
    for (unsigned j = 0; j <= TENTHS && !made; j++)
        table[j] = to_nearest(sine_of_fixed(pi() * j / (2 * TENTHS) >> (100 - PLACES)));
    made = true;
    return table[k];
}

static int64_t signed_entry(uint64_t e)
{
    if (e <= 900)
        return entry(e);
    if (e <= 1800)
        return entry(1800 - e);
    return e <= 2700 ? -entry(e - 1800) : -entry(3600 - e);
}

wheel_answer wheel(uint64_t e)
{
    if (e >= TURN)
        return (wheel_answer){ .refused = 16 };
    uint64_t quarter_on = e < 2700 ? e + 900 : e - 2700;
    return (wheel_answer){ 0, (double)signed_entry(e) / 0x1p30, (double)signed_entry(quarter_on) / 0x1p30 };
}
