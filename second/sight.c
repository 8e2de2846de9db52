/* The intercept geometry along the sight line. */
#include "sight.h"

#include "tests.h"

static void unit_test(failure *f, const char *name, vector a)
{
    must(f, fabs(length(a) - 1) <= 0x1p-40, 17, name, length(a), "1 within 2^-40");
}

static void input_tests(failure *f, vector active, vector passive, int wheel_refused, vector h, vector u)
{
    must_be_finite_vector(f, of_a, active);
    must_be_finite_vector(f, of_p, passive);
    must_be_finite_vector(f, of_h, h);
    must_be_finite_vector(f, of_u, u);
    position_row(f, of_a, active);
    position_row(f, of_p, passive);
    must(f, wheel_refused == 0, wheel_refused, "E", 0, "at most 3599");
    unit_test(f, of_h[3], h);
    unit_test(f, of_u[3], u);
}

sight_answer sight(vector active, vector passive, uint64_t e, vector horizontal, vector vertical)
{
    wheel_answer at = wheel(e);
    failure f = { 0 };
    input_tests(&f, active, passive, at.refused, horizontal, vertical);
    vector u = plus(times(at.cosine, horizontal), times(at.sine, vertical));
    double b = dot(active, u), radicand = b * b - (dot(active, active) - dot(passive, passive));
    must(&f, !(radicand < 0), 18, "radicand", radicand, "at least 0");
    if (f.number)
        return (sight_answer){ .refused = f.number };
    double root = sqrt(radicand), larger = -b + root, smaller = -b - root;
    return (sight_answer){ 0, { larger, smaller },
                           { plus(active, times(larger, u)), plus(active, times(smaller, u)) } };
}
