/* 01, 'Kepler', 'Lambert and Time-Theta', 'Apsides', with what 02 changed. In every answer `refused` is the
 * number of 01 or 02, or 0. */
#ifndef CONIC_H
#define CONIC_H

#include "iterator.h"
#include "series.h"
#include "tests.h"
#include "vector.h"

#include <stdint.h>

enum grade { CLOSED, FAIR, ROUGH };

/* Of the size of the time asked for: an err of at most the one is closed, of at most the other fair. */
typedef struct { double closed, fair; } fractions;

/* The terms of a solve: the run that it goes on from, if any, and the greatest count (02, T-14); the version of the
 * settings that is named, if any (T-11), and the fractions of the grades. */
typedef struct {
    bool continued, versioned;
    bracket from;
    uint64_t limit, version;
    fractions grades;
} terms;

static const terms usual_terms = { .limit = UINT64_MAX, .grades = { 0x1p-20, 0x1p-10 } };

typedef struct {
    int refused;
    bracket at; /* the neighbours, or where 29 stopped */
    int64_t n;  /* the lower neighbour */
    uint64_t count;
    uint64_t turns; /* Kepler's: whole turns taken off the time asked for */
    enum grade grade;
    double time, err;
    vector r, v; /* Lambert answers v alone */
} solution;

/* The way round of a transfer; or its normal, and then no way round is read. */
typedef struct { enum { SHORT_WAY, LONG_WAY, NORMAL_GIVEN } as; vector normal; } way;

typedef struct { int refused; bool closed; double near, far; } apses;

solution advance_state(double mu, state from, double time, terms on);
solution transfer_velocity(double mu, vector from, vector to, double time, way way, terms on);

/* The same on the usual terms. */
solution kepler(double mu, state from, double time);
solution lambert(double mu, vector from, vector to, double time, bool long_way);

/* The judgement of a point of their grids, and the range test that leaves it without a time (none at the grid's own ends),
 * for inputs that pass the tests up to 6. */
judgement advance_judged(double mu, state from, double time, int64_t n);
judgement transfer_judged(double mu, vector from, vector to, double time, way way, int64_t n);
failure advance_stop(double mu, state from, double time, int64_t n);
failure transfer_stop(double mu, vector from, vector to, double time, way way, int64_t n);

number time_theta(double mu, state from, double sine, double cosine);
apses apsides(double mu, state at);

/* The same solves, with the first test that failed told; 29, 8 and 7 of an advance and a transfer are no test's. */
solution advance_told(failure *f, double mu, state from, double time, terms on);
solution transfer_told(failure *f, double mu, vector from, vector to, double time, way way, terms on);
number theta_told(failure *f, double mu, state from, double sine, double cosine);
apses apsides_told(failure *f, double mu, state at);

#endif
