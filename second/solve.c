#include "solve.h"

#include "real.h"

void finite_state(failure *f, double mu, state s)
{
    must_be_finite(f, "mu", mu);
    must_be_finite_vector(f, of_r, s.r);
    must_be_finite_vector(f, of_v, s.v);
}

void state_rows(failure *f, double mu, state s)
{
    mu_row(f, mu);
    position_row(f, of_r, s.r);
    velocity_row(f, s.v);
}

double c2_of(double mu, state s)
{
    return length(s.r) * dot(s.v, s.v) / mu - 1;
}

double p_of(double mu, state s)
{
    vector r_v = cross(s.r, s.v);
    return dot(r_v, r_v) / mu;
}

double p_n_of(double mu, state s)
{
    return p_of(mu, s) / length(s.r);
}

void fall_test(failure *f, double p_n)
{
    must(f, p_n >= 0x1p-20, 19, "p", p_n, "at least 2^-20");
}

double grid_step(int64_t n)
{
    return (double)n * 0x1p-20;
}

double time_at(double c1, double c2, double r1, double root_mu, double x, double xi)
{
    double z = x * x;
    pair at = both_series(xi);
    return (c1 * (z * at.c) + x * (c2 * (z * at.s) + r1)) / root_mu;
}

void xi_tests(failure *f, int below, double xi)
{
    must(f, !(xi < xi_least), below, "xi", xi, "at least -50");
    must(f, xi <= xi_most, 7, "xi", xi, "at most 40");
}

void trial_time_test(failure *f, double t)
{
    must(f, time_in_range(t), 7, "time", t, "at most 2^28 in size");
}

judgement judged(const failure *f, double t, double asked)
{
    if (f->number)
        return (judgement){ f->number == 8 ? UNDER : OVER, 0 };
    return (judgement){ t <= asked ? LOW : HIGH, t };
}

solution closed_in(bracket b, double trials_time, double size, fractions grades)
{
    if (b.hi - b.lo > 1)
        return (solution){ .refused = 29, .at = b };
    if (!carries_time(b.below))
        return (solution){ .refused = 8, .at = b };
    if (!carries_time(b.above))
        return (solution){ .refused = 7, .at = b };
    double t = b.below.time, err = trials_time - t;
    enum grade grade = err <= size * grades.closed ? CLOSED : err <= size * grades.fair ? FAIR : ROUGH;
    return (solution){ .at = b, .n = b.lo, .count = b.count, .grade = grade, .time = t, .err = err };
}
