#include "series.h"

#include "real.h"

static const double divisors_of_c[8] = { 12, 30, 56, 90, 132, 182, 240, 306 };
static const double divisors_of_s[8] = { 20, 42, 72, 110, 156, 210, 272, 342 };

number root(double x)
{
    if (!isfinite(x) || x < 0)
        return (number){ .refused = 1 };
    return (number){ .value = sqrt(x) };
}

bool xi_in_range(double xi)
{
    return xi_least <= xi && xi <= xi_most;
}

static double nested(double xi, const double divisors[8])
{
    double p = 1;
    for (int k = 8; k-- > 0;)
        p = 1 - xi * p / divisors[k];
    return p;
}

/* c and s at ξ need both at ξ/4 and no more, so they are worked out together. */
pair both_series(double xi)
{
    if (fabs(xi) <= 1)
        return (pair){ nested(xi, divisors_of_c) / 2, nested(xi, divisors_of_s) / 6 };
    double q = xi / 4;
    pair at_q = both_series(q);
    double f = 1 - q * at_q.s;
    return (pair){ f * f / 2, (at_q.s + at_q.c * f) / 4 };
}

static int refusal(double xi)
{
    return !isfinite(xi) ? 1 : !xi_in_range(xi) ? 6 : 0;
}

number series_c(double xi)
{
    int refused = refusal(xi);
    return refused ? (number){ .refused = refused } : (number){ .value = both_series(xi).c };
}

number series_s(double xi)
{
    int refused = refusal(xi);
    return refused ? (number){ .refused = refused } : (number){ .value = both_series(xi).s };
}
