#include "replay.h"

#include "real.h"
#include "tests.h"

static const int64_t longest = INT64_C(1) << 28; /* row 5's, for exact differences of time */

static int set_state(replay *m, const record *r)
{
    const double *n = r->numbers;
    m->vehicles[r->vehicle] = (vehicle){ true, r->byte, r->time, { { n[0], n[1], n[2] }, { n[3], n[4], n[5] } } };
    return 0;
}

static bool too_far(const vehicle *v, int64_t time)
{
    int64_t difference = time - v->time;
    return difference < -longest || difference > longest;
}

/* The vehicle at another time; Kepler's refusal. */
static int advanced(const replay *m, const vehicle *v, int64_t time, vehicle *to)
{
    solution a = kepler(m->mu[v->body], v->at, (double)(time - v->time));
    *to = (vehicle){ true, v->body, time, { a.r, a.v } };
    return a.refused;
}

static int burn(replay *m, const record *r)
{
    vehicle *v = &m->vehicles[r->vehicle], after;
    failure f = { 0 };
    if (!v->set)
        return 20;
    if (too_far(v, r->time))
        return 5;
    int refused = advanced(m, v, r->time, &after);
    if (refused)
        return refused;
    after.at.v = plus(after.at.v, (vector){ r->numbers[0], r->numbers[1], r->numbers[2] });
    velocity_row(&f, after.at.v);
    if (f.number)
        return f.number;
    *v = after;
    return 0;
}

static int mark(replay *m, const record *r, double *off)
{
    vehicle *v = m->vehicles, after[2];
    if (!v[0].set || !v[1].set)
        return 20;
    if (v[0].body != v[1].body)
        return 21;
    if (too_far(&v[0], r->time) || too_far(&v[1], r->time))
        return 5;
    int refused = advanced(m, &v[0], r->time, &after[0]);
    if (!refused)
        refused = advanced(m, &v[1], r->time, &after[1]);
    if (refused)
        return refused;
    *off = length(minus(after[0].at.r, after[1].at.r)) - r->numbers[0];
    v[0] = after[0];
    v[1] = after[1];
    return 0;
}

replayed take_record(replay *m, const record *r)
{
    replayed a = { 0, 0 };
    switch (r->kind) {
    case STATE:
        a.refused = set_state(m, r);
        break;
    case BURN:
        a.refused = burn(m, r);
        break;
    case MARK:
        a.refused = mark(m, r, &a.off);
        break;
    }
    return a;
}
