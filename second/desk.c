#include "desk.h"

#include "cdh.h"
#include "pen.h"
#include "real.h"
#include "sight.h"
#include "words.h"

#include <inttypes.h>
#include <stdio.h>

const form forms[ROUTINES] = {
    [ROOT] = { "root", "n" },
    [C] = { "c", "n" },
    [S] = { "s", "n" },
    [TRIAL] = { "trial", "niijjk" },
    [KEPLER] = { "kepler", "nnnnnnnnt" },
    [LAMBERT] = { "lambert", "nnnnnnnnwt" },
    [THETA] = { "theta", "nnnnnnnnn" },
    [APSIDES] = { "apsides", "nnnnnnn" },
    [WHEEL] = { "wheel", "k" },
    [SIGHT] = { "sight", "nnnnnnknnnnnn" },
    [CDH] = { "cdh", "knnnnnnnninnnnnniii" },
};

/* Reading. */

static bool read_judgement(span w, judgement *out)
{
    out->time = 0;
    out->as = span_is(w, "under") ? UNDER : span_is(w, "over") ? OVER : span_begins(w, "low:") ? LOW : HIGH;
    if (!carries_time(*out))
        return true;
    size_t head = out->as == LOW ? 4 : 5;
    return (out->as == LOW || span_begins(w, "high:")) && read_number(behind(w, head), &out->time);
}

static bool read_way(reader *from, way *out)
{
    span w = next_word(from);
    *out = (way){ .as = span_is(w, "long") ? LONG_WAY : span_is(w, "short") ? SHORT_WAY : NORMAL_GIVEN };
    if (out->as != NORMAL_GIVEN)
        return true;
    vector *n = &out->normal;
    return span_is(w, "normal") && read_number(next_word(from), &n->x) && read_number(next_word(from), &n->y)
           && read_number(next_word(from), &n->z);
}

static bool read_stopped_run(reader *from, bracket *out)
{
    return read_whole(next_word(from), &out->lo) && read_judgement(next_word(from), &out->below)
           && read_whole(next_word(from), &out->hi) && read_judgement(next_word(from), &out->above)
           && read_count(next_word(from), &out->count);
}

static bool read_terms(reader *from, terms *out)
{
    *out = usual_terms;
    out->continued = next_is(from, "from");
    if (out->continued && !read_stopped_run(from, &out->from))
        return false;
    if (next_is(from, "limit") && !read_count(next_word(from), &out->limit))
        return false;
    out->versioned = next_is(from, "version");
    return !out->versioned || read_count(next_word(from), &out->version);
}

static bool read_part(char letter, reader *from, word *out)
{
    switch (letter) {
    case 'n':
        return read_number(next_word(from), &out->number);
    case 'i':
        return read_whole(next_word(from), &out->whole);
    case 'k':
        return read_count(next_word(from), &out->count);
    case 'j':
        return read_judgement(next_word(from), &out->judgement);
    case 'w':
        return read_way(from, &out->way);
    default:
        return read_terms(from, &out->terms);
    }
}

static bool read_routine(span w, enum routine *out)
{
    int routine = 0;
    while (routine < ROUTINES && !span_is(w, forms[routine].name))
        routine++;
    *out = (enum routine)routine;
    return routine < ROUTINES;
}

bool is_solve(enum routine routine)
{
    return routine == KEPLER || routine == LAMBERT || routine == THETA || routine == APSIDES;
}

int read_request(const char *line, size_t length, request *out)
{
    reader from;
    span name;
    int begun = first_word(line, length, &from, &name);
    if (begun != READ)
        return begun;
    out->why = span_is(name, "why");
    if (out->why)
        name = next_word(&from);
    if (!read_routine(name, &out->routine) || (out->why && !is_solve(out->routine)))
        return from.number;
    word *w = out->words;
    for (const char *letter = forms[out->routine].words; *letter; letter++)
        if (!read_part(*letter, &from, w++))
            return from.number;
    return next_word(&from).length == 0 ? READ : from.number;
}

/* Answering. */

static void say_number(pen *p, const char *shape, number a)
{
    if (a.refused)
        say(p, "refused %d", a.refused);
    else
        say_numbers(p, shape, &a.value);
}

static void say_trial(pen *p, const word *w)
{
    point a = trial(w[0].number, w[1].whole, w[2].whole, w[3].judgement, w[4].judgement, w[5].count);
    if (a.refused)
        say(p, "refused %d", a.refused);
    else if (a.none)
        say(p, "none");
    else
        say(p, "point %" PRId64, a.n);
}

void say_judgement(pen *p, judgement j)
{
    static const char *const heads[] = { [UNDER] = "under", [LOW] = "low:", [HIGH] = "high:", [OVER] = "over" };
    say(p, "%s", heads[j.as]);
    if (carries_time(j))
        say_bits(p, j.time);
}

/* What can be put behind the request as it is. */
void say_stopped_run(pen *p, const bracket *at)
{
    say(p, " from %" PRId64 " ", at->lo);
    say_judgement(p, at->below);
    say(p, " %" PRId64 " ", at->hi);
    say_judgement(p, at->above);
    say(p, " %" PRIu64, at->count);
}

static void say_solution(pen *p, bool orbit, solution a)
{
    static const char *const grades[] = { [CLOSED] = "closed", [FAIR] = "fair", [ROUGH] = "rough" };
    if (a.refused) {
        say(p, "refused %d", a.refused);
        if (a.refused == 29)
            say_stopped_run(p, &a.at);
        return;
    }
    say(p, "done n %" PRId64 " count %" PRIu64, a.n, a.count);
    if (orbit)
        say(p, " turns %" PRIu64, a.turns);
    say(p, " grade %s ", grades[a.grade]);
    if (orbit)
        say_numbers(p, "time D err D r D D D v D D D",
                    (double[]){ a.time, a.err, a.r.x, a.r.y, a.r.z, a.v.x, a.v.y, a.v.z });
    else
        say_numbers(p, "time D err D v D D D", (double[]){ a.time, a.err, a.v.x, a.v.y, a.v.z });
}

static void say_apses(pen *p, apses a)
{
    if (a.refused)
        say(p, "refused %d", a.refused);
    else
        say_numbers(p, a.closed ? "closed near D far D" : "open near D", (double[]){ a.near, a.far });
}

static void say_wheel(pen *p, wheel_answer a)
{
    if (a.refused)
        say(p, "refused %d", a.refused);
    else
        say_numbers(p, "sine D cosine D", (double[]){ a.sine, a.cosine });
}

static void say_sight(pen *p, sight_answer a)
{
    vector first = a.points[0], second = a.points[1];
    if (a.refused)
        say(p, "refused %d", a.refused);
    else
        say_numbers(p, "points k D D first D D D second D D D",
                    (double[]){ a.k[0], a.k[1], first.x, first.y, first.z, second.x, second.y, second.z });
}

static void say_cdh(pen *p, cdh_answer a)
{
    vector c = a.change;
    if (a.refused)
        say(p, "refused %d", a.refused);
    else
        say_numbers(p, a.after.closed ? "change D D D closed near D far D" : "change D D D open near D",
                    (double[]){ c.x, c.y, c.z, a.after.near, a.after.far });
}

vector vector_at(const word *w)
{
    return (vector){ w[0].number, w[1].number, w[2].number };
}

state state_at(const word *w)
{
    return (state){ vector_at(w), vector_at(w + 3) };
}

/* 30 and 23 go ahead of a solve's own refusals. */

static solution advance_asked(const word *w, const settings *kept)
{
    terms on = w[8].terms;
    int refused = take_fractions(kept, &on);
    return refused ? (solution){ .refused = refused } : advance_state(w[0].number, state_at(w + 1), w[7].number, on);
}

static solution transfer_asked(const word *w, const settings *kept)
{
    terms on = w[9].terms;
    int refused = take_fractions(kept, &on);
    return refused ? (solution){ .refused = refused }
                   : transfer_velocity(w[0].number, vector_at(w + 1), vector_at(w + 4), w[7].number, w[8].way, on);
}

static cdh_answer cdh_of(const word *w)
{
    timed_state active = { state_at(w + 3), w[9].whole }, passive = { state_at(w + 10), w[16].whole };
    return cdh(w[0].count, w[1].number, w[2].number, active, passive, w[17].whole, w[18].whole);
}

void answer_request(const request *asked, const settings *kept, char out[ANSWER_MAX])
{
    const word *w = asked->words;
    pen p = { out };
    if (asked->why) {
        say_why(&p, asked, kept);
        return;
    }
    switch (asked->routine) {
    case ROOT:
        say_number(&p, "value D", root(w[0].number));
        break;
    case C:
        say_number(&p, "value D", series_c(w[0].number));
        break;
    case S:
        say_number(&p, "value D", series_s(w[0].number));
        break;
    case TRIAL:
        say_trial(&p, w);
        break;
    case KEPLER:
        say_solution(&p, true, advance_asked(w, kept));
        break;
    case LAMBERT:
        say_solution(&p, false, transfer_asked(w, kept));
        break;
    case THETA:
        say_number(&p, "time D", time_theta(w[0].number, state_at(w + 1), w[7].number, w[8].number));
        break;
    case APSIDES:
        say_apses(&p, apsides(w[0].number, state_at(w + 1)));
        break;
    case WHEEL:
        say_wheel(&p, wheel(w[0].count));
        break;
    case SIGHT:
        say_sight(&p, sight(vector_at(w), vector_at(w + 3), w[6].count, vector_at(w + 7), vector_at(w + 10)));
        break;
    default:
        say_cdh(&p, cdh_of(w));
    }
}

void answer_line(int unread, const request *asked, const settings *kept, char out[ANSWER_MAX])
{
    if (unread == READ)
        answer_request(asked, kept, out);
    else
        sprintf(out, "unread %d", unread);
}
