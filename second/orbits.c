#include "orbits.h"

#include "dice.h"

vector direction(void)
{
    for (;;) {
        vector a;
        a.x = uniform(-1, 1);
        a.y = uniform(-1, 1);
        a.z = uniform(-1, 1);
        if (dot(a, a) > 0.01 && dot(a, a) <= 1)
            return over(a, length(a));
    }
}

vector across(vector u)
{
    for (;;) {
        vector a = cross(u, direction());
        if (length(a) > 0.1)
            return over(a, length(a));
    }
}

static double some_mu(void)
{
    static const double bodies[] = { 3.986032e10, 4.902778e8, 0x1p32 };
    return one_in(4) ? scaled(28, 36) : bodies[below(3)];
}

double cosine_of(double h)
{
    return (1 - h * h) / (1 + h * h);
}

double sine_of(double h)
{
    return (h + h) / (1 + h * h);
}

/* The energy of a shape, and the half tangent of its angle to the upright. */
static void some_shape(double *energy, double *h)
{
    *energy = 1;
    *h = scaled(-3, 3);
    switch (below(8)) {
    case 0:
        *h = 1; /* circular */
        break;
    case 1: case 2: case 3:
        *energy = uniform(0.1, 1.9);
        break;
    case 4:
        *energy = 2 + either_sign(one_in(2) ? 0 : scaled(-52, -30)); /* parabolic, as near as it comes */
        break;
    case 5:
        *energy = 2 + scaled(-4, 4);
        break;
    case 6:
        *energy = uniform(0.1, 4);
        *h = scaled(-24, -3); /* nearly straight */
        break;
    default:
        *energy = scaled(-8, 7);
        *h = scaled(-8, 8);
    }
}

/* Whole powers of two on the axes, where much is exact and many components are 0. */
static orbit round_orbit(void)
{
    orbit o = { 0x1p32, 1, { { 0x1p22, 0, 0 }, { 0, 32, 0 } } };
    if (one_in(2))
        o = (orbit){ 0x1p30, 1, { { 0, -0x1p24, 0 }, { 0, 0, 8 } } };
    double faster = (double)(1 + below(4)) / 2;
    o.energy = faster * faster;
    o.at.v = times(one_in(4) ? near(faster) : faster, o.at.v);
    return o;
}

orbit some_orbit(void)
{
    if (one_in(16))
        return round_orbit();
    orbit o = { .mu = some_mu() };
    double h;
    some_shape(&o.energy, &h);
    double least = o.energy * o.mu * 0x1p-14; /* slower than 2^7 from here outwards */
    double r = (least < 0x1p18 ? 0x1p18 : least) * uniform(1, one_in(4) ? 64 : 8);
    if (!(r < 0x1p29))
        r = uniform(0x1p18, 0x1p29);
    double speed = sqrt(o.energy * o.mu / r), climb = either_sign(cosine_of(h));
    vector up = direction(), along = across(up);
    o.at.r = times(r, up);
    o.at.v = times(speed, plus(times(climb, up), times(sine_of(h), along)));
    return o;
}

/* As many turns of a closed orbit: within one, beside a whole number, in the last slice of one. */
static double some_turns(void)
{
    double whole = (double)(1 + below(one_in(2) ? 500 : 4));
    switch (below(16)) {
    case 0: case 1:
        return whole * (1 + either_sign(scaled(-53, -8)));
    case 2:
        return whole - scaled(-40, -4);
    case 3:
        return uniform(0, 500);
    case 4:
        return uniform(0.9, 2);
    default:
        return uniform(0, 1);
    }
}

double some_time(const orbit *o)
{
    static const double long_ones[] = { 900000, 3600000, 259200000 }; /* ten hours, thirty days */
    double r = length(o->at.r), t;
    if (one_in(12))
        t = one_in(2) ? long_ones[below(3)] : scaled(-30, 20);
    else if (o->energy < 1.95) {
        double a = r / (2 - o->energy);
        t = 6.283185307179586 * a * sqrt(a / o->mu) * some_turns();
    } else
        t = r * sqrt(r / o->mu) * scaled(-6, 4);
    return t <= 0x1p28 ? t : uniform(0, 0x1p28);
}
