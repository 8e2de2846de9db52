/* Lambert, and 02's T-13: transfers with the normal given. */
#include "solve.h"

#include "real.h"

/* The problem that the trials solve, and what makes a velocity of its solution. */
typedef struct {
    double mu, asked, ratio, sine, cosine;
    transfer transfer;
    vector u1, normal;
} between_positions;

/* Steps 1 and 2: p of a cot. */
static double p_at(failure *f, const between_positions *l, double cot)
{
    int without = l->sine >= 0 ? 8 : 7;
    double den = (l->ratio - l->cosine) + l->sine * cot, p = (1 - l->cosine) / den;
    must(f, den > 0, without, "den", den, "over 0");
    must(f, p <= 16, without, "p", p, "at most 2^4");
    return p;
}

static double time_of(failure *f, const between_positions *l, int64_t n)
{
    double cot = grid_step(n), p = p_at(f, l, cot);
    return f->number ? 0 : flight_time(f, &l->transfer, p, cot, 2 - p * (1 + cot * cot));
}

static judgement judge_transfer(const void *problem, int64_t n)
{
    const between_positions *l = problem;
    failure f = { 0 };
    double t = time_of(&f, l, n);
    return judged(&f, t, l->asked);
}

static void input_tests(failure *f, double mu, vector from, vector to, double time, way way, const terms *on)
{
    must_be_finite(f, "mu", mu);
    must_be_finite_vector(f, of_a, from);
    must_be_finite_vector(f, of_b, to);
    must_be_finite(f, "t", time);
    if (way.as == NORMAL_GIVEN)
        must_be_finite_vector(f, of_n, way.normal);
    continuation_times(f, on);
    mu_row(f, mu);
    position_row(f, of_a, from);
    position_row(f, of_b, to);
    time_row(f, time);
    must(f, time > 0, 5, "t", time, "over 0");
}

/* Sine and normal by the way round, with row 10. */

static void by_cross_product(failure *f, between_positions *l, vector u1_u2, bool long_way)
{
    double sine = length(u1_u2);
    must(f, sine >= 0x1p-10, 10, "|u1xu2|", sine, "at least 2^-10");
    vector normal = over(u1_u2, sine);
    l->sine = long_way ? -sine : sine;
    l->normal = long_way ? negated(normal) : normal;
}

static void by_normal(failure *f, between_positions *l, vector u1_u2, vector normal)
{
    double off = length(normal) - 1;
    l->sine = dot(u1_u2, normal);
    l->normal = normal;
    must(f, 1 - l->cosine >= 0x1p-20, 10, "1-cos", 1 - l->cosine, "at least 2^-20");
    must(f, fabs(off) <= 0x1p-40, 10, of_n[3], length(normal), "1 within 2^-40");
}

static grid grid_of(const between_positions *l)
{
    const int64_t end = INT64_C(1) << 25;
    return (grid){ { -end, end, { UNDER, 0 }, { OVER, 0 }, 0 }, judge_transfer, l, 52 };
}

/* The problem, and the tests ahead of the first trial. */
static between_positions posed(failure *f, double mu, vector from, vector to, double time, way way, const terms *on)
{
    double r1 = length(from), r2 = length(to);
    vector u1 = over(from, r1), u2 = over(to, r2), u1_u2 = cross(u1, u2);
    between_positions l = { .mu = mu, .asked = time, .ratio = r1 / r2, .cosine = dot(u1, u2), .u1 = u1 };
    input_tests(f, mu, from, to, time, way, on);
    if (way.as == NORMAL_GIVEN)
        by_normal(f, &l, u1_u2, way.normal);
    else
        by_cross_product(f, &l, u1_u2, way.as == LONG_WAY);
    l.transfer = transfer_of(mu, r1, l.sine, l.cosine);
    must(f, l.ratio < 0x1p7, 6, "r1/r2", l.ratio, "under 2^7");
    turn_test(f, l.transfer.turn);
    grid g = grid_of(&l);
    continuation_tests(f, &g, on);
    return l;
}

static vector velocity_at(const between_positions *l, int64_t n)
{
    failure f = { 0 };
    double cot = grid_step(n), p = p_at(&f, l, cot);
    return times(sqrt(l->mu * p / l->transfer.r1), plus(times(cot, l->u1), cross(l->normal, l->u1)));
}

solution transfer_told(failure *f, double mu, vector from, vector to, double time, way way, terms on)
{
    between_positions l = posed(f, mu, from, to, time, way, &on);
    if (f->number)
        return (solution){ .refused = f->number };
    grid g = grid_of(&l);
    solution found = closed_in(trials_made(&g, time, &on), time, time, on.grades);
    if (found.refused)
        return found;
    found.v = velocity_at(&l, found.n);
    velocity_result(f, found.v);
    return f->number ? (solution){ .refused = f->number } : found;
}

solution transfer_velocity(double mu, vector from, vector to, double time, way way, terms on)
{
    failure f = { 0 };
    return transfer_told(&f, mu, from, to, time, way, on);
}

solution lambert(double mu, vector from, vector to, double time, bool long_way)
{
    return transfer_velocity(mu, from, to, time, (way){ .as = long_way ? LONG_WAY : SHORT_WAY }, usual_terms);
}

judgement transfer_judged(double mu, vector from, vector to, double time, way way, int64_t n)
{
    failure f = { 0 };
    between_positions l = posed(&f, mu, from, to, time, way, &usual_terms);
    grid g = grid_of(&l);
    return judged_afresh(&g, n);
}

failure transfer_stop(double mu, vector from, vector to, double time, way way, int64_t n)
{
    failure f = { 0 };
    between_positions l = posed(&f, mu, from, to, time, way, &usual_terms);
    grid g = grid_of(&l);
    if (n != g.ends.lo && n != g.ends.hi)
        time_of(&f, &l, n);
    return f;
}
