/* Steps 4 to 7 of 01, for Lambert and Time-Theta. */
#include "solve.h"

#include "real.h"

transfer transfer_of(double mu, double r1, double sine, double cosine)
{
    return (transfer){ r1, sqrt(r1), sqrt(mu), sine / (1 - cosine) };
}

void turn_test(failure *f, double turn)
{
    must(f, fabs(turn) <= 0x1p5, 6, "sin/(1-cos)", turn, "at most 2^5 in size");
}

/* Step 5: five times W + √(W·W + α_N). */
static double halved_five_times(failure *f, double w, double alpha_n)
{
    for (int k = 0; k < 5 && !f->number; k++) {
        double radicand = w * w + alpha_n;
        must(f, radicand >= 0, 7, "radicand", radicand, "at least 0");
        w = w + sqrt(radicand);
        must(f, w > 0, 7, "W", w, "over 0");
    }
    return w;
}

/* Step 6's g = 1 − y/3 + y²/5 − … + y^8/17. */
static double arc_series(double y)
{
    double g = 1.0 / 17;
    for (int k = 7; k >= 0; k--)
        g = 1.0 / (2 * k + 1) - y * g;
    return g;
}

double flight_time(failure *f, const transfer *way, double p, double cot, double alpha_n)
{
    double root_p = sqrt(p), w = root_p * (way->turn - cot);
    must(f, !(alpha_n <= 0 && w <= 0), 7, "W", w, "over 0");
    w = halved_five_times(f, w, alpha_n);
    if (f->number)
        return 0;
    double x_n = 64 * arc_series(alpha_n / (w * w)) / w;
    double x = way->root_r1 * x_n, xi = alpha_n * (x_n * x_n);
    must(f, x < 0x1p17, 7, "x", x, "under 2^17");
    xi_tests(f, 8, xi);
    if (f->number)
        return 0;
    double c1 = way->root_r1 * root_p * cot, t = time_at(c1, 1 - alpha_n, way->r1, way->root_mu, x, xi);
    trial_time_test(f, t);
    return t;
}
