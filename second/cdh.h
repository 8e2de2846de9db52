/* 02, T-12: the constant-height burn. */
#ifndef CDH_H
#define CDH_H

#include "conic.h"

/* A vehicle's state and its whole cs. */
typedef struct { state at; int64_t time; } timed_state;

/* The active vehicle's change of velocity at t2, and the apsides after it. */
typedef struct { int refused; vector change; apses after; } cdh_answer;

cdh_answer cdh(uint64_t body, double radius, double mu, timed_state active, timed_state passive, int64_t t2, int64_t t3);

#endif
