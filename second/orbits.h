/* Orbits of every shape, for the makers of requests and sessions. */
#ifndef ORBITS_H
#define ORBITS_H

#include "vector.h"

/* energy: |r|·(v·v)/mu, 1 in a circle, 2 in a parabola. */
typedef struct { double mu, energy; state at; } orbit;

orbit some_orbit(void);

/* Mostly within one turn. */
double some_time(const orbit *o);

/* Of length 1, and of length 1 and upright on another. */
vector direction(void);
vector across(vector u);

/* Points of the unit circle by the tangent of half the angle. */
double cosine_of(double h);
double sine_of(double h);

#endif
