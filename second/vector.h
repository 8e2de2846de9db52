/* Vectors and the state, in 01's order of operations. */
#ifndef VECTOR_H
#define VECTOR_H

#include <math.h>
#include <stdbool.h>

typedef struct { double x, y, z; } vector;
typedef struct { vector r, v; } state;

static inline double dot(vector a, vector b)
{
    return a.x * b.x + a.y * b.y + a.z * b.z;
}

static inline double length(vector a)
{
    return sqrt(dot(a, a));
}

static inline vector cross(vector a, vector b)
{
    return (vector){ a.y * b.z - a.z * b.y, a.z * b.x - a.x * b.z, a.x * b.y - a.y * b.x };
}

static inline vector negated(vector a)
{
    return (vector){ -a.x, -a.y, -a.z };
}

static inline vector over(vector a, double d)
{
    return (vector){ a.x / d, a.y / d, a.z / d };
}

static inline vector times(double f, vector a)
{
    return (vector){ f * a.x, f * a.y, f * a.z };
}

static inline bool finite_vector(vector a)
{
    return isfinite(a.x) && isfinite(a.y) && isfinite(a.z);
}

static inline vector plus(vector a, vector b)
{
    return (vector){ a.x + b.x, a.y + b.y, a.z + b.z };
}

static inline vector minus(vector a, vector b)
{
    return (vector){ a.x - b.x, a.y - b.y, a.z - b.z };
}

#endif
