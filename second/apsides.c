/* Periapo. */
#include "solve.h"

#include "real.h"

apses apsides_told(failure *f, double mu, state at)
{
    finite_state(f, mu, at);
    state_rows(f, mu, at);
    double c2 = c2_of(mu, at), alpha_n = 1 - c2;
    double p = p_of(mu, at), p_n = p_n_of(mu, at);
    double radicand = 1 - p_n * alpha_n;
    double e = radicand < 0 ? 0 : sqrt(radicand);
    must(f, fabs(c2) < 0x1p6, 6, "c2", c2, "under 2^6 in size");
    must(f, p_n <= 16, 6, "p", p_n, "at most 2^4");
    must(f, e < 0x1p3, 6, "e", e, "under 2^3");
    fall_test(f, p_n);
    if (f->number)
        return (apses){ .refused = f->number };

    double far = p / (1 - e);
    bool closed = alpha_n > 0 && 1 - e > 0 && far < 0x1p29;
    return (apses){ .closed = closed, .near = p / (1 + e), .far = closed ? far : 0 };
}

apses apsides(double mu, state at)
{
    failure f = { 0 };
    return apsides_told(&f, mu, at);
}
