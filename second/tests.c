#include "tests.h"

#include "iterator.h"

names of_r = { "rx", "ry", "rz", "|r|" };
names of_v = { "vx", "vy", "vz", "|v|" };
names of_a = { "ax", "ay", "az", "|a|" };
names of_b = { "bx", "by", "bz", "|b|" };
names of_n = { "nx", "ny", "nz", "|n|" };
names of_p = { "px", "py", "pz", "|p|" };
names of_h = { "hx", "hy", "hz", "|h|" };
names of_u = { "ux", "uy", "uz", "|u|" };

void must_be_finite(failure *f, const char *name, double x)
{
    must(f, isfinite(x), 1, name, x, "finite");
}

void must_be_finite_vector(failure *f, names name, vector a)
{
    must_be_finite(f, name[0], a.x);
    must_be_finite(f, name[1], a.y);
    must_be_finite(f, name[2], a.z);
}

/* Each component under, or at most, a size. */

static void under(failure *f, int number, names name, vector a, double size, const char *limit)
{
    must(f, fabs(a.x) < size, number, name[0], a.x, limit);
    must(f, fabs(a.y) < size, number, name[1], a.y, limit);
    must(f, fabs(a.z) < size, number, name[2], a.z, limit);
}

static void at_most(failure *f, int number, names name, vector a, double size, const char *limit)
{
    must(f, fabs(a.x) <= size, number, name[0], a.x, limit);
    must(f, fabs(a.y) <= size, number, name[1], a.y, limit);
    must(f, fabs(a.z) <= size, number, name[2], a.z, limit);
}

void mu_row(failure *f, double mu)
{
    must(f, mu >= 0x1p28, 2, "mu", mu, "at least 2^28");
    must(f, mu < 0x1p36, 2, "mu", mu, "under 2^36");
}

void position_row(failure *f, names name, vector r)
{
    double r_length = length(r);
    under(f, 3, name, r, 0x1p29, "under 2^29 in size");
    must(f, r_length >= 0x1p18, 3, name[3], r_length, "at least 2^18");
    must(f, r_length < 0x1p29, 3, name[3], r_length, "under 2^29");
}

void velocity_row(failure *f, vector v)
{
    at_most(f, 4, of_v, v, 0x1p7, "at most 2^7 in size");
}

void time_row(failure *f, double t)
{
    must(f, time_in_range(t), 5, "t", t, "at most 2^28 in size");
}

void body_test(failure *f, uint64_t body)
{
    must(f, body <= 1, 14, "body", (double)body, "0 or 1");
}

void radius_test(failure *f, double radius)
{
    must(f, 0 < radius && radius < 0x1p29, 22, "radius", radius, "over 0 and under 2^29");
}

void position_result(failure *f, vector r)
{
    under(f, 9, of_r, r, 0x1p29, "under 2^29 in size");
}

void velocity_result(failure *f, vector v)
{
    at_most(f, 9, of_v, v, 0x1p7, "at most 2^7 in size");
}
