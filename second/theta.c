/* Time-Theta. */
#include "solve.h"

#include "real.h"

static void input_tests(failure *f, double mu, state from, double sine, double cosine)
{
    finite_state(f, mu, from);
    must_be_finite(f, "sin", sine);
    must_be_finite(f, "cos", cosine);
    state_rows(f, mu, from);
    double off = (cosine * cosine + sine * sine) - 1;
    must(f, fabs(off) <= 0x1p-40, 10, "cos2+sin2-1", off, "at most 2^-40 in size");
    must(f, 1 - cosine >= 0x1p-20, 10, "1-cos", 1 - cosine, "at least 2^-20");
}

number theta_told(failure *f, double mu, state from, double sine, double cosine)
{
    input_tests(f, mu, from, sine, cosine);
    double r1 = length(from.r), c2 = c2_of(mu, from);
    double cot = dot(from.r, from.v) / length(cross(from.r, from.v)), p_n = p_n_of(mu, from);
    transfer way = transfer_of(mu, r1, sine, cosine);
    must(f, fabs(c2) < 0x1p6, 6, "c2", c2, "under 2^6 in size");
    must(f, fabs(cot) <= 0x1p5, 6, "cot", cot, "at most 2^5 in size");
    must(f, p_n <= 16, 6, "p", p_n, "at most 2^4");
    turn_test(f, way.turn);
    fall_test(f, p_n);
    if (f->number)
        return (number){ .refused = f->number };
    double t = flight_time(f, &way, p_n, cot, 1 - c2);
    return (number){ .refused = f->number, .value = t };
}

number time_theta(double mu, state from, double sine, double cosine)
{
    failure f = { 0 };
    return theta_told(&f, mu, from, sine, cosine);
}
