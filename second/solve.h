/* What the solves share. */
#ifndef SOLVE_H
#define SOLVE_H

#include "conic.h"
#include "iterator.h"
#include "tests.h"

/* Rows 1 and 2 to 4 for mu and a state. */
void finite_state(failure *f, double mu, state s);
void state_rows(failure *f, double mu, state s);

/* What a state gives: c2 = |r|·(v·v)/mu − 1; α_N = 1 − c2. */
double c2_of(double mu, state s);

/* p = (r×v)·(r×v)/mu; p_N = p/|r|; and T-09's test of it. */
double p_of(double mu, state s);
double p_n_of(double mu, state s);
void fall_test(failure *f, double p_n);

/* x of a grid point, and cot γ. */
double grid_step(int64_t n);

/* t = (c1·(z·c) + x·(c2·(z·s) + r1))/√mu with z = x·x. */
double time_at(double c1, double c2, double r1, double root_mu, double x, double xi);

/* The range tests of a trial: 8 leaves it under, too fast for a time, and 7 over, too slow. */
void xi_tests(failure *f, int below, double xi);
void trial_time_test(failure *f, double t);

judgement judged(const failure *f, double t, double asked);

/* A grid with the judgements that 01 gives its own ends, what judges the points between, and 2b. */
typedef struct { bracket ends; judge *judge; const void *problem; uint64_t most; } grid;

judgement judged_afresh(const grid *g, int64_t n);

/* T-14: rows 1 and 6 for a continuation. */
void continuation_times(failure *f, const terms *on);
void continuation_tests(failure *f, const grid *g, const terms *on);

bracket trials_made(const grid *g, double asked, const terms *on);

/* The answer at the lower neighbour, still without an orbit, or 29, 8 or 7: the trials' time, and the size of
 * the time asked for, of which the grade's limits are fractions. */
solution closed_in(bracket b, double trials_time, double size, fractions grades);

/* Steps 4 to 7: what a transfer keeps from trial to trial; turn = sinθ/(1 − cosθ). */
typedef struct { double r1, root_r1, root_mu, turn; } transfer;

transfer transfer_of(double mu, double r1, double sine, double cosine);
void turn_test(failure *f, double turn);
double flight_time(failure *f, const transfer *way, double p, double cot, double alpha_n);

#endif
