/* Kepler, and 02's T-02: times longer than one turn. */
#include "solve.h"

#include "real.h"

/* The problem that the trials solve: rest is what is left of the size of time when whole turns are off. */
typedef struct { double size, rest, root_mu, r1, c1, c2, alpha; uint64_t turns; } advance;

static void take_turns_off(advance *k)
{
    k->rest = k->size;
    if (!(k->alpha > 0))
        return;
    double a = 1 / k->alpha, period = 2 * 3.141592653589793 * a * sqrt(a) / k->root_mu;
    k->turns = (uint64_t)(k->size / period);
    k->rest = k->size - (double)k->turns * period;
    if (k->rest < 0)
        k->rest = 0;
}

static advance advance_of(double mu, state from, double size)
{
    advance k = { .size = size, .root_mu = sqrt(mu), .r1 = length(from.r) };
    k.c1 = dot(from.r, from.v) / k.root_mu;
    k.c2 = c2_of(mu, from);
    k.alpha = (1 - k.c2) / k.r1;
    return k;
}

static double time_of(failure *f, const advance *k, int64_t n)
{
    double x = grid_step(n), xi = k->alpha * (x * x);
    xi_tests(f, 7, xi);
    if (f->number)
        return 0;
    double t = time_at(k->c1, k->c2, k->r1, k->root_mu, x, xi);
    trial_time_test(f, t);
    return t;
}

static judgement judge_advance(const void *problem, int64_t n)
{
    const advance *k = problem;
    failure f = { 0 };
    double t = time_of(&f, k, n);
    return judged(&f, t, k->rest);
}

/* The state after n steps of the grid, which took the time t. */
static state state_at(const advance *k, state from, int64_t n, double t)
{
    double x = grid_step(n), z = x * x, xi = k->alpha * z;
    pair at = both_series(xi);
    double zc = z * at.c;
    state to;
    to.r = plus(times(1 - zc / k->r1, from.r), times(t - x * (z * at.s) / k->root_mu, from.v));
    double r2 = length(to.r);
    to.v = plus(times(k->root_mu * x * (xi * at.s - 1) / (k->r1 * r2), from.r),
                times(1 - zc / r2, from.v));
    return to;
}

static grid grid_of(const advance *k)
{
    return (grid){ { 0, INT64_C(1) << 37, { LOW, 0 }, { OVER, 0 }, 0 }, judge_advance, k, 74 };
}

static void input_tests(failure *f, double mu, state from, double time, const terms *on)
{
    finite_state(f, mu, from);
    must_be_finite(f, "t", time);
    continuation_times(f, on);
    state_rows(f, mu, from);
    time_row(f, time);
}

static void derived_tests(failure *f, const advance *k)
{
    must(f, fabs(k->c1) < 0x1p17, 6, "c1", k->c1, "under 2^17 in size");
    must(f, fabs(k->c2) < 0x1p6, 6, "c2", k->c2, "under 2^6 in size");
}

static void result_tests(failure *f, state to)
{
    position_result(f, to.r);
    velocity_result(f, to.v);
    must(f, length(to.r) > 0, 9, "|r|", length(to.r), "over 0");
}

static state ahead_of(state from, double time)
{
    return (state){ from.r, time < 0 ? negated(from.v) : from.v };
}

/* The problem, and the tests ahead of the first trial. */
static advance posed(failure *f, double mu, state from, double time, const terms *on)
{
    advance k = advance_of(mu, ahead_of(from, time), time < 0 ? -time : time);
    grid g = grid_of(&k);
    input_tests(f, mu, from, time, on);
    derived_tests(f, &k);
    if (!f->number)
        take_turns_off(&k);
    continuation_tests(f, &g, on);
    fall_test(f, p_n_of(mu, from));
    return k;
}

solution advance_told(failure *f, double mu, state from, double time, terms on)
{
    advance k = posed(f, mu, from, time, &on);
    if (f->number)
        return (solution){ .refused = f->number };
    grid g = grid_of(&k);
    solution found = closed_in(trials_made(&g, k.rest, &on), k.rest, k.size, on.grades);
    if (found.refused)
        return found;
    state to = state_at(&k, ahead_of(from, time), found.n, found.time);
    result_tests(f, to);
    if (f->number)
        return (solution){ .refused = f->number };
    found.turns = k.turns;
    found.r = to.r;
    found.v = time < 0 ? negated(to.v) : to.v;
    return found;
}

solution advance_state(double mu, state from, double time, terms on)
{
    failure f = { 0 };
    return advance_told(&f, mu, from, time, on);
}

solution kepler(double mu, state from, double time)
{
    return advance_state(mu, from, time, usual_terms);
}

judgement advance_judged(double mu, state from, double time, int64_t n)
{
    failure f = { 0 };
    advance k = posed(&f, mu, from, time, &usual_terms);
    grid g = grid_of(&k);
    return judged_afresh(&g, n);
}

failure advance_stop(double mu, state from, double time, int64_t n)
{
    failure f = { 0 };
    advance k = posed(&f, mu, from, time, &usual_terms);
    grid g = grid_of(&k);
    if (n != g.ends.lo && n != g.ends.hi)
        time_of(&f, &k, n);
    return f;
}
