/* The tests of a solve. Each says what must hold, and the first that does not hold is told. */
#ifndef TESTS_H
#define TESTS_H

#include "iterator.h"
#include "vector.h"

#include <stdint.h>

/* The first test that failed: its number in 01 and 02 (0: none), whose amount it was, and what it must be. The amount is a
 * number; of a continuation's end it is a place on the grid or a count, and a place may have to be judged as it is afresh. */
typedef struct {
    int number;
    enum { AMOUNT, PLACE, JUDGED_PLACE, TALLY } of;
    const char *name, *limit;
    union { double amount; int64_t place; uint64_t tally; };
    judgement afresh;
} failure;

static inline void must(failure *f, bool holds, int number, const char *name, double amount, const char *limit)
{
    if (f->number == 0 && !holds)
        *f = (failure){ .number = number, .name = name, .limit = limit, .amount = amount };
}

/* The names of a vector's components and of its length. */
typedef const char *const names[4];

extern names of_r, of_v, of_a, of_b, of_n, of_p, of_h, of_u;

/* Rows 1 to 5. */
void must_be_finite(failure *f, const char *name, double x);
void must_be_finite_vector(failure *f, names name, vector a);
void mu_row(failure *f, double mu);
void position_row(failure *f, names name, vector r);
void velocity_row(failure *f, vector v);
void time_row(failure *f, double t);

/* 14 and 22 for a body and its surface radius. */
void body_test(failure *f, uint64_t body);
void radius_test(failure *f, double radius);

/* Row 9's components. */
void position_result(failure *f, vector r);
void velocity_result(failure *f, vector v);

#endif
