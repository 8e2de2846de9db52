/* What may stand behind an advance or a transfer: runs to go on from, limits, and versions of the settings. */
#include "makers.h"

#include "conic.h"
#include "dice.h"
#include "real.h"

static bool is_advance(const request *q)
{
    return q->routine == KEPLER;
}

static terms *terms_of(request *q)
{
    return &q->words[is_advance(q) ? 8 : 9].terms;
}

static int64_t first_point(const request *q)
{
    return is_advance(q) ? 0 : -(INT64_C(1) << 25);
}

static int64_t last_point(const request *q)
{
    return INT64_C(1) << (is_advance(q) ? 37 : 25);
}

static solution run_of(const request *q, terms on)
{
    const word *w = q->words;
    if (is_advance(q))
        return advance_state(w[0].number, state_at(w + 1), w[7].number, on);
    return transfer_velocity(w[0].number, vector_at(w + 1), vector_at(w + 4), w[7].number, w[8].way, on);
}

static judgement judgement_at(const request *q, int64_t n)
{
    const word *w = q->words;
    if (is_advance(q))
        return advance_judged(w[0].number, state_at(w + 1), w[7].number, n);
    return transfer_judged(w[0].number, vector_at(w + 1), vector_at(w + 4), w[7].number, w[8].way, n);
}

static uint64_t some_count(void)
{
    static const uint64_t limits[] = { 0, 1, 2, 51, 52, 53, 73, 74, 75, UINT64_MAX };
    return one_in(4) ? limits[below(10)] : below(60);
}

/* Honest ends. */

static bracket ends_at(const request *q, int64_t lo, int64_t hi, uint64_t count)
{
    return (bracket){ lo, hi, judgement_at(q, lo), judgement_at(q, hi), count };
}

static int64_t some_point(const request *q)
{
    double share = one_in(2) ? uniform(0, 1) : scaled(-37, 0);
    uint64_t width = (uint64_t)(last_point(q) - first_point(q));
    return first_point(q) + (int64_t)(share * (double)width);
}

/* Where a limit stopped a run; one in eight is of any two points instead. */
static bracket some_stopped_run(const request *q)
{
    terms on = { .limit = below(one_in(4) ? 50 : 20) };
    solution stopped = run_of(q, on);
    if (stopped.refused == 29 && !one_in(8))
        return stopped.at;
    int64_t lo = some_point(q), hi = some_point(q);
    return lo < hi ? ends_at(q, lo, hi, some_count()) : ends_at(q, hi, lo, some_count());
}

/* T-14's tests, each broken. */

static int64_t off_grid(const request *q)
{
    const int64_t points[] = { first_point(q) - 1, last_point(q) + 1, INT64_MIN, INT64_MAX, -last_point(q) - 1 };
    return points[below(5)];
}

static judgement misjudged(judgement j)
{
    if (carries_time(j) && one_in(2))
        return (judgement){ j.as, one_in(4) ? -j.time : of_key(key_of(j.time) + (one_in(2) ? 1 : -1)) };
    return (judgement){ (enum judged)below(4), j.time };
}

static judgement not_finite(judgement j)
{
    return (judgement){ one_in(2) ? j.as : one_in(2) ? LOW : HIGH, oddity() };
}

/* The grid's own ends, as 01 judges them or not; 0 with a time of -0 among them. */
static bracket from_own_ends(const request *q, const bracket *b)
{
    bracket own = one_in(2) ? ends_at(q, first_point(q), b->hi, b->count) : ends_at(q, b->lo, last_point(q), b->count);
    if (one_in(3))
        own.below = (judgement){ one_in(4) ? UNDER : LOW, one_in(2) ? -0.0 : 0 };
    if (one_in(4))
        own.above = (judgement){ one_in(2) ? OVER : HIGH, 0x1p28 };
    return own;
}

static void break_a_test(request *q, bracket *b)
{
    int64_t lo = b->lo, hi = b->hi;
    switch (below(10)) {
    case 0:
        b->lo = off_grid(q);
        break;
    case 1:
        b->hi = off_grid(q);
        break;
    case 2: /* out of order, or one point */
        *b = one_in(2) ? ends_at(q, hi, lo, b->count) : ends_at(q, lo, lo, b->count);
        break;
    case 3:
        b->below = misjudged(b->below);
        break;
    case 4:
        b->above = misjudged(b->above);
        break;
    case 5: /* lo is high or over */
        *b = ends_at(q, hi, last_point(q), b->count);
        break;
    case 6: /* hi is low or under */
        *b = ends_at(q, first_point(q), lo, b->count);
        break;
    case 7:
        b->count = some_count();
        break;
    case 8:
        *(one_in(2) ? &b->below : &b->above) = not_finite(b->below);
        break;
    default:
        *b = from_own_ends(q, b);
    }
}

void some_terms(request *q)
{
    terms *on = terms_of(q);
    if (one_in(2))
        on->limit = some_count();
    if (one_in(3))
        return;
    on->continued = true;
    on->from = some_stopped_run(q);
    if (one_in(2))
        break_a_test(q, &on->from);
    if (one_in(8))
        break_a_test(q, &on->from);
    if (one_in(8)) /* the run of another time */
        q->words[7].number *= 1 + either_sign(scaled(-52, 0));
}

void some_version(request *q)
{
    static const uint64_t odd[] = { 0, 64, 65, UINT64_C(1) << 32 | 1, UINT64_C(1) << 63, UINT64_MAX };
    terms *on = terms_of(q);
    on->versioned = true;
    on->version = one_in(4) ? odd[below(sizeof odd / sizeof *odd)] : 1 + below(one_in(2) ? 4 : 64);
}
