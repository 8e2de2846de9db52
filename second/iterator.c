#include "iterator.h"

#include "real.h"

bool carries_time(judgement j)
{
    return j.as == LOW || j.as == HIGH;
}

bool time_in_range(double t)
{
    return -0x1p28 <= t && t <= 0x1p28;
}

/* A share of the width, cut towards zero. */
static uint64_t cut(double x)
{
    if (!(x >= 1))
        return 0;
    return x < 0x1p64 ? (uint64_t)x : UINT64_MAX;
}

static int64_t next_point(const bracket *b, double asked, uint64_t number)
{
    uint64_t width = (uint64_t)b->hi - (uint64_t)b->lo;
    uint64_t step = width / 2;
    if (number % 2 == 1 && carries_time(b->below) && carries_time(b->above)) {
        double q = (asked - b->below.time) / (b->above.time - b->below.time);
        step = cut(q * (double)width);
        if (step < 1)
            step = 1;
        if (step > width - 1)
            step = width - 1;
    }
    return b->lo + (int64_t)step;
}

bracket narrowed(bracket b, double asked, uint64_t limit, judge *judge, const void *problem)
{
    while (b.hi - b.lo > 1 && b.count < limit) {
        b.count++;
        int64_t n = next_point(&b, asked, b.count);
        judgement j = judge(problem, n);
        if (j.as == LOW || j.as == UNDER) {
            b.lo = n;
            b.below = j;
        } else {
            b.hi = n;
            b.above = j;
        }
    }
    return b;
}

static bool finite_time(judgement j)
{
    return !carries_time(j) || isfinite(j.time);
}

static bool end_holds(judgement j, double asked)
{
    if (!carries_time(j))
        return true;
    return time_in_range(j.time) && (j.as == LOW ? j.time <= asked : j.time > asked);
}

point trial(double asked, int64_t lo, int64_t hi, judgement below, judgement above, uint64_t number)
{
    if (!isfinite(asked) || !finite_time(below) || !finite_time(above))
        return (point){ .refused = 1 };
    const int64_t limit = INT64_C(1) << 37;
    if (!(-limit <= lo && lo < hi && hi <= limit && time_in_range(asked)
          && (below.as == LOW || below.as == UNDER) && end_holds(below, asked)
          && (above.as == HIGH || above.as == OVER) && end_holds(above, asked)))
        return (point){ .refused = 6 };
    if (hi - lo == 1)
        return (point){ .none = true };
    bracket b = { lo, hi, below, above, 0 };
    return (point){ .n = next_point(&b, asked, number) };
}
