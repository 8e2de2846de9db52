/* 02, T-07: which test refuses a solve, and by what amount; or that none does. */
#include "desk.h"

#include "conic.h"
#include "pen.h"
#include "settings.h"

#include <inttypes.h>

static void say_test(pen *p, const failure *f)
{
    say(p, "%s ", f->name);
    say_decimal(p, f->amount);
    say(p, " must be %s bits ", f->limit);
    say_bits(p, f->amount);
}

static void say_failure(pen *p, const failure *f)
{
    say(p, "refused %d ", f->number);
    switch (f->of) {
    case AMOUNT:
        say_test(p, f);
        break;
    case PLACE:
        say(p, "%s %" PRId64 " must be %s", f->name, f->place, f->limit);
        break;
    case JUDGED_PLACE:
        say(p, "%s %" PRId64 " must be ", f->name, f->place);
        say_judgement(p, f->afresh);
        break;
    case TALLY:
        say(p, "%s %" PRIu64 " must be %s", f->name, f->tally, f->limit);
    }
}

static void say_neighbours(pen *p, const solution *a, const failure *stop)
{
    const bracket *b = &a->at;
    say(p, "refused %d lo %" PRId64 " ", a->refused, b->lo);
    say_judgement(p, b->below);
    say(p, " hi %" PRId64 " ", b->hi);
    say_judgement(p, b->above);
    say(p, " count %" PRIu64 " because ", b->count);
    if (stop->number)
        say_test(p, stop);
    else
        say(p, "end of grid");
}

static void say_solved(pen *p, const bracket *b)
{
    say(p, "solved lo %" PRId64 " time ", b->lo);
    say_decimal(p, b->below.time);
    say(p, " hi %" PRId64 " time ", b->hi);
    say_decimal(p, b->above.time);
    say(p, " count %" PRIu64 " bits ", b->count);
    say_bits(p, b->below.time);
    say(p, " ");
    say_bits(p, b->above.time);
}

/* An advance's or a transfer's; the stop is that of 7 and 8. */
static void say_solve(pen *p, const failure *f, const solution *a, const failure *stop)
{
    if (f->number)
        say_failure(p, f);
    else if (a->refused == 29) {
        say(p, "refused 29");
        say_stopped_run(p, &a->at);
    } else if (a->refused)
        say_neighbours(p, a, stop);
    else
        say_solved(p, &a->at);
}

/* The neighbour without a time: 8 is the lower one's, 7 the upper one's. */
static int64_t timeless(const solution *a)
{
    return a->refused == 8 ? a->at.lo : a->at.hi;
}

static void say_why_advance(pen *p, const word *w, terms on)
{
    failure f = { 0 };
    solution a = advance_told(&f, w[0].number, state_at(w + 1), w[7].number, on);
    failure stop = advance_stop(w[0].number, state_at(w + 1), w[7].number, timeless(&a));
    say_solve(p, &f, &a, &stop);
}

static void say_why_transfer(pen *p, const word *w, terms on)
{
    vector from = vector_at(w + 1), to = vector_at(w + 4);
    failure f = { 0 };
    solution a = transfer_told(&f, w[0].number, from, to, w[7].number, w[8].way, on);
    failure stop = transfer_stop(w[0].number, from, to, w[7].number, w[8].way, timeless(&a));
    say_solve(p, &f, &a, &stop);
}

static void say_why_theta(pen *p, const word *w)
{
    failure f = { 0 };
    theta_told(&f, w[0].number, state_at(w + 1), w[7].number, w[8].number);
    if (f.number == 7 || f.number == 8) {
        say(p, "refused %d because ", f.number);
        say_test(p, &f);
    } else if (f.number)
        say_failure(p, &f);
    else
        say(p, "solved");
}

static void say_why_apsides(pen *p, const word *w)
{
    failure f = { 0 };
    apsides_told(&f, w[0].number, state_at(w + 1));
    if (f.number)
        say_failure(p, &f);
    else
        say(p, "solved");
}

void say_why(pen *p, const request *asked, const settings *kept)
{
    const word *w = asked->words;
    terms on = usual_terms;
    if (asked->routine == KEPLER || asked->routine == LAMBERT)
        on = w[asked->routine == KEPLER ? 8 : 9].terms;
    int refused = take_fractions(kept, &on);
    if (refused)
        say(p, "refused %d", refused);
    else if (asked->routine == KEPLER)
        say_why_advance(p, w, on);
    else if (asked->routine == LAMBERT)
        say_why_transfer(p, w, on);
    else if (asked->routine == THETA)
        say_why_theta(p, w);
    else
        say_why_apsides(p, w);
}
