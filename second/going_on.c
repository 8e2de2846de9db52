/* 02, T-14: a limit on trials, and going on from a run that was stopped. */
#include "solve.h"

#include "real.h"

judgement judged_afresh(const grid *g, int64_t n)
{
    if (n == g->ends.lo)
        return g->ends.below;
    return n == g->ends.hi ? g->ends.above : g->judge(g->problem, n);
}

void continuation_times(failure *f, const terms *on)
{
    if (on->continued && carries_time(on->from.below))
        must_be_finite(f, "lo", on->from.below.time);
    if (on->continued && carries_time(on->from.above))
        must_be_finite(f, "hi", on->from.above.time);
}

static bool on_grid(const grid *g, int64_t n)
{
    return g->ends.lo <= n && n <= g->ends.hi;
}

static bool to_the_bit(judgement a, judgement b)
{
    return a.as == b.as && (!carries_time(a) || bits_of(a.time) == bits_of(b.time));
}

static void place_must(failure *f, bool holds, const char *name, int64_t place, const char *limit)
{
    if (f->number == 0 && !holds)
        *f = (failure){ 6, PLACE, name, limit, .place = place };
}

static void must_be_judged(failure *f, const char *name, int64_t place, judgement stated, judgement afresh)
{
    if (f->number == 0 && !to_the_bit(stated, afresh))
        *f = (failure){ 6, JUDGED_PLACE, name, .place = place, .afresh = afresh };
}

static void count_must(failure *f, bool holds, uint64_t count, const char *limit)
{
    if (f->number == 0 && !holds)
        *f = (failure){ 6, TALLY, "count", limit, .tally = count };
}

static void end_tests(failure *f, const grid *g, const bracket *b)
{
    must_be_judged(f, "lo", b->lo, b->below, judged_afresh(g, b->lo));
    must_be_judged(f, "hi", b->hi, b->above, judged_afresh(g, b->hi));
    place_must(f, b->below.as == LOW || b->below.as == UNDER, "lo", b->lo, "low or under");
    place_must(f, b->above.as == HIGH || b->above.as == OVER, "hi", b->hi, "high or over");
}

void continuation_tests(failure *f, const grid *g, const terms *on)
{
    const bracket *b = &on->from;
    if (f->number || !on->continued)
        return;
    place_must(f, on_grid(g, b->lo), "lo", b->lo, "on the grid");
    place_must(f, on_grid(g, b->hi), "hi", b->hi, "on the grid");
    place_must(f, b->lo < b->hi, "lo", b->lo, "under hi");
    if (f->number)
        return;
    end_tests(f, g, b);
    count_must(f, b->count <= g->most, b->count, g->most == 74 ? "at most 74" : "at most 52");
}

bracket trials_made(const grid *g, double asked, const terms *on)
{
    return narrowed(on->continued ? on->from : g->ends, asked, on->limit, g->judge, g->problem);
}
