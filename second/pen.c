#include "pen.h"

#include "real.h"

#include <inttypes.h>
#include <stdarg.h>
#include <stdio.h>

void say(pen *p, const char *text, ...)
{
    va_list given;
    va_start(given, text);
    p->at += vsprintf(p->at, text, given);
    va_end(given);
}

/* x is its significand over a power of two. */
void say_decimal(pen *p, double x)
{
    if (!(fabs(x) < 0x1p43)) {
        say(p, isnan(x) ? "nan" : "large");
        return;
    }
    uint64_t bits = bits_of(x), significand = bits & 0xFFFFFFFFFFFFF, exponent = bits >> 52 & 0x7FF;
    if (exponent == 0)
        exponent = 1;
    else
        significand |= UINT64_C(1) << 52;
    uint64_t halvings = 1075 - exponent;
    uint64_t millionths = halvings > 100 ? 0 : (uint64_t)((unsigned __int128)significand * 1000000 >> halvings);
    say(p, "%s%" PRIu64 ".%06" PRIu64, signbit(x) ? "-" : "", millionths / 1000000, millionths % 1000000);
}

void say_bits(pen *p, double x)
{
    say(p, "x%016" PRIX64, isnan(x) ? 0x7FF8000000000000 : bits_of(x));
}

void say_numbers(pen *p, const char *shape, const double numbers[])
{
    int count = 0;
    for (; *shape; shape++) {
        if (*shape == 'D')
            say_decimal(p, numbers[count++]);
        else
            say(p, "%c", *shape);
    }
    say(p, " bits");
    for (int k = 0; k < count; k++) {
        say(p, " ");
        say_bits(p, numbers[k]);
    }
}
