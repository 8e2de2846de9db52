/* 01, 'Root and series'. */
#ifndef SERIES_H
#define SERIES_H

#include <stdbool.h>

/* `refused` is 01's number, or 0 with the value. */
typedef struct { int refused; double value; } number;

number root(double x);
number series_c(double xi);
number series_s(double xi);

/* Both series at a ξ in its range. */
typedef struct { double c, s; } pair;

/* 01's -50, and 02's 40 (T-02). */
static const double xi_least = -50, xi_most = 40;

bool xi_in_range(double xi);
pair both_series(double xi);

#endif
