#include "cdh.h"

#include "solve.h"

#include "real.h"

typedef __int128 wide; /* for exact differences of times */

static cdh_answer refused(int number)
{
    return (cdh_answer){ .refused = number };
}

static void input_tests(failure *f, uint64_t body, double radius, int64_t t2, int64_t t3)
{
    body_test(f, body);
    radius_test(f, radius);
    must(f, (wide)t3 - t2 >= 60000, 25, "t3-t2", (double)t3 - (double)t2, "at least 60000");
}

/* A vehicle at t2; its refusal. */
static int at_t2(double mu, const timed_state *s, int64_t t2, state *to)
{
    wide difference = (wide)t2 - s->time;
    if (difference < -(1 << 28) || difference > 1 << 28)
        return 5;
    solution a = kepler(mu, s->at, (double)difference);
    *to = (state){ a.r, a.v };
    return a.refused;
}

static vector unit(vector a)
{
    return over(a, length(a));
}

/* The passive vehicle where it is in line with the active one: C. */
static int in_line(double mu, state a, state p, state *c)
{
    vector n = unit(cross(p.r, p.v));
    double d = dot(a.r, n);
    vector u_a = unit(minus(a.r, times(d, n))), u_p = unit(p.r);
    double cosine = dot(u_p, u_a), sine = dot(cross(u_p, u_a), n);
    number t = time_theta(mu, p, sine, cosine);
    if (t.refused)
        return t.refused;
    solution there = kepler(mu, p, t.value);
    *c = (state){ there.r, there.v };
    return there.refused;
}

/* The active vehicle's velocity after the burn: 26 or 27. */
static int new_velocity(double mu, state a, state c, vector *to)
{
    double r_a = length(a.r), r_c = length(c.r), alpha = (1 - c2_of(mu, c)) / r_c;
    double a_p = 1 / alpha, a_a = a_p + (r_a - r_c);
    if (!(alpha > 0 && a_p > 0 && a_a > 0))
        return 26;
    double v_p = dot(c.r, c.v) / r_c, s = a_p / a_a, v_a = v_p * s * sqrt(s);
    double radicand = mu * (2 / r_a - 1 / a_a) - v_a * v_a;
    if (!(radicand >= 0))
        return 27;
    vector m = unit(cross(a.r, a.v)), w = unit(a.r);
    *to = plus(times(v_a, w), times(sqrt(radicand), cross(m, w)));
    return 0;
}

static cdh_answer burn_of(uint64_t body, double radius, double mu, state a, state p)
{
    state c;
    vector after;
    int number = in_line(mu, a, p, &c);
    if (!number)
        number = new_velocity(mu, a, c, &after);
    if (number)
        return refused(number);
    apses orbit = apsides(mu, (state){ a.r, after });
    if (orbit.refused)
        return refused(orbit.refused);
    if (!(orbit.near - radius > (body == 0 ? 157420 : 10668)))
        return refused(28);
    return (cdh_answer){ 0, minus(after, a.v), orbit };
}

cdh_answer cdh(uint64_t body, double radius, double mu, timed_state active, timed_state passive, int64_t t2, int64_t t3)
{
    failure f = { 0 };
    state a, p;
    input_tests(&f, body, radius, t2, t3);
    int number = f.number;
    if (!number)
        number = at_t2(mu, &active, t2, &a);
    if (!number)
        number = at_t2(mu, &passive, t2, &p);
    return number ? refused(number) : burn_of(body, radius, mu, a, p);
}
