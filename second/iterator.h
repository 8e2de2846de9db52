/* 01, 'Judging a trial, and the iterator'. */
#ifndef ITERATOR_H
#define ITERATOR_H

#include <stdbool.h>
#include <stdint.h>

enum judged { UNDER, LOW, HIGH, OVER };

/* The time counts for low and high only. */
typedef struct { enum judged as; double time; } judgement;

/* lo < hi, the judgement below at lo and above at hi, and the count of trials made. */
typedef struct {
    int64_t lo, hi;
    judgement below, above;
    uint64_t count;
} bracket;

typedef judgement judge(const void *problem, int64_t n);

bool carries_time(judgement j);
bool time_in_range(double t);

/* Makes trials until lo and hi are neighbours or the count is at its limit. */
bracket narrowed(bracket b, double asked, uint64_t limit, judge *judge, const void *problem);

/* The single trial called from outside. */
typedef struct { int refused; bool none; int64_t n; } point;

point trial(double asked, int64_t lo, int64_t hi, judgement below, judgement above, uint64_t number);

#endif
