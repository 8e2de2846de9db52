/* The second program's routines, each made of a call of the library: linked with the second program's reader of lines and
 * its benches, it asks the library what they ask, and nothing of the second program solves anything (tools/library.sh). */
#include "cabin.h"

#include "cdh.h"
#include "conic.h"
#include "desk.h"
#include "files.h"
#include "pen.h"
#include "programs.h"
#include "replay.h"
#include "session.h"
#include "settings.h"
#include "sight.h"

#include <inttypes.h>
#include <math.h>
#include <stdio.h>
#include <stdlib.h>
#include <string.h>

enum { MOST = 16 };

/* What is lent for an answer. */
typedef struct { double numbers[MOST]; int64_t whole[MOST]; } lent;

#ifdef TIMED
#define FRESH
static int checked(uint32_t refused, const lent *l, size_t numbers, size_t wholes)
{
    (void)l, (void)numbers, (void)wholes;
    return (int)refused;
}
#else
/* It is filled, so that a byte that is written where none should be shows: a refusal has written nothing, an answer
 * nothing behind its places. */
#define EIGHT -1, -1, -1, -1, -1, -1, -1, -1
#define FRESH = { { EIGHT, EIGHT }, { EIGHT, EIGHT } }
static int checked(uint32_t refused, const lent *l, size_t numbers, size_t wholes)
{
    static const lent untouched FRESH;
    size_t n = refused ? 0 : numbers, w = refused ? 0 : wholes;
    if (memcmp(l->numbers + n, untouched.numbers + n, (MOST - n) * sizeof(double)) != 0 ||
        memcmp(l->whole + w, untouched.whole + w, (MOST - w) * sizeof(int64_t)) != 0) {
        fprintf(stderr, "the library wrote where it should not, with refusal %" PRIu32 "\n", refused);
        exit(2);
    }
    return (int)refused;
}
#endif

static vector vector_of(const double *x)
{
    return (vector){ x[0], x[1], x[2] };
}

#define LENT(v) ((const double[]){ (v).x, (v).y, (v).z }), 3
#define LENT_STATE(s) ((const double[]){ (s).r.x, (s).r.y, (s).r.z, (s).v.x, (s).v.y, (s).v.z }), 6

/* 01, 'Root and series' */

static number number_of(uint32_t refused, const lent *l)
{
    return (number){ checked(refused, l, 1, 0), l->numbers[0] };
}

number root(double x)
{
    lent l FRESH;
    return number_of(cabin_root(x, l.numbers, 1), &l);
}

number series_c(double xi)
{
    lent l FRESH;
    return number_of(cabin_c(xi, l.numbers, 1), &l);
}

number series_s(double xi)
{
    lent l FRESH;
    return number_of(cabin_s(xi, l.numbers, 1), &l);
}

/* Trials */

bool carries_time(judgement j)
{
    return j.as == LOW || j.as == HIGH;
}

/* For the second program's own tests, of which the settings' alone are asked. */
bool time_in_range(double t)
{
    return -0x1p28 <= t && t <= 0x1p28;
}

static const uint64_t judged_as[] = { [LOW] = CABIN_LOW, [HIGH] = CABIN_HIGH, [UNDER] = CABIN_UNDER, [OVER] = CABIN_OVER };

point trial(double asked, int64_t lo, int64_t hi, judgement below, judgement above, uint64_t k)
{
    lent l FRESH;
    uint32_t r = cabin_trial(asked, lo, hi, judged_as[below.as], below.time, judged_as[above.as], above.time, k, l.whole, 2);
    bool none = r == 0 && l.whole[0] == 0;
    return (point){ checked(r, &l, 0, none ? 1 : 2), none, l.whole[1] };
}

/* Orbits */

static const enum grade graded[] = { [CABIN_CLOSED] = CLOSED, [CABIN_FAIR] = FAIR, [CABIN_ROUGH] = ROUGH };

/* An orbit's numbers and its whole numbers. */
static solution orbit_of(const double *x, const int64_t *w)
{
    return (solution){ .n = w[0], .count = (uint64_t)w[1], .turns = (uint64_t)w[2], .grade = graded[w[3]], .time = x[6],
                       .err = x[7], .r = vector_of(x), .v = vector_of(x + 3) };
}

solution kepler(double mu, state from, double time)
{
    lent l FRESH;
    int r = checked(cabin_advance(mu, LENT_STATE(from), time, l.numbers, 8, l.whole, 4), &l, 8, 4);
    return r ? (solution){ .refused = r } : orbit_of(l.numbers, l.whole);
}

static const uint64_t ways[] = { [SHORT_WAY] = CABIN_SHORT_WAY, [LONG_WAY] = CABIN_LONG_WAY, [NORMAL_GIVEN] = CABIN_NORMAL };

static solution velocity_of(const double *x, const int64_t *w)
{
    return (solution){ .n = w[0], .count = (uint64_t)w[1], .grade = graded[w[2]], .time = x[3], .err = x[4], .v = vector_of(x) };
}

static solution transfer(double mu, vector from, vector to, double time, way way)
{
    lent l FRESH;
    int r = checked(cabin_transfer_velocity(mu, LENT(from), LENT(to), ways[way.as], LENT(way.normal), time, l.numbers, 5, l.whole, 3), &l, 5, 3);
    return r ? (solution){ .refused = r } : velocity_of(l.numbers, l.whole);
}

solution lambert(double mu, vector from, vector to, double time, bool long_way)
{
    return transfer(mu, from, to, time, (way){ .as = long_way ? LONG_WAY : SHORT_WAY });
}

/* The run to go on from, as it is lent: none is no word and no time. */
typedef struct { double times[2]; int64_t words[5]; } run;

static run run_of(const bracket *b)
{
    return (run){ { b->below.time, b->above.time },
                  { b->lo, (int64_t)judged_as[b->below.as], b->hi, (int64_t)judged_as[b->above.as], (int64_t)b->count } };
}

#define LENT_RUN(r, on) (r).times, (on).continued ? 2 : 0, (r).words, (on).continued ? 5 : 0, (on).limit

/* What a limit stopped: the library's words and times are handed in again as they are (tools/library.sh, `stops`). */
static solution stopped_at(const lent *l)
{
    static const enum judged named[] = { [CABIN_LOW] = LOW, [CABIN_HIGH] = HIGH, [CABIN_UNDER] = UNDER, [CABIN_OVER] = OVER };
    const int64_t *w = l->whole + 1;
    return (solution){ .refused = 29, .at = { .lo = w[0], .hi = w[2], .below = { named[w[1]], l->numbers[0] },
                                              .above = { named[w[3]], l->numbers[1] }, .count = (uint64_t)w[4] } };
}

/* The settings that a version is named of: `by` looks at them. */
static settings in_use;

int take_fractions(const settings *s, terms *on)
{
    (void)on;
    in_use = *s;
    return 0;
}

static bool usual(const terms *on)
{
    return !on->continued && !on->versioned && on->limit == usual_terms.limit;
}

solution advance_state(double mu, state from, double time, terms on)
{
    lent l FRESH;
    run r = run_of(&on.from);
    if (usual(&on))
        return kepler(mu, from, time);
    uint32_t refused = on.versioned ? cabin_advance_by(in_use.bytes, in_use.used, on.version, mu, LENT_STATE(from), time, LENT_RUN(r, on), l.numbers, 8, l.whole, 6)
                                    : cabin_advance_within(mu, LENT_STATE(from), time, LENT_RUN(r, on), l.numbers, 8, l.whole, 6);
    bool found = l.whole[0] == CABIN_FOUND;
    if (checked(refused, &l, found ? 8 : 2, found ? 5 : 6))
        return (solution){ .refused = (int)refused };
    return found ? orbit_of(l.numbers, l.whole + 1) : stopped_at(&l);
}

solution transfer_velocity(double mu, vector from, vector to, double time, way way, terms on)
{
    lent l FRESH;
    run r = run_of(&on.from);
    if (usual(&on))
        return transfer(mu, from, to, time, way);
    uint32_t refused = on.versioned ? cabin_transfer_velocity_by(in_use.bytes, in_use.used, on.version, mu, LENT(from), LENT(to), ways[way.as], LENT(way.normal),
                                                                 time, LENT_RUN(r, on), l.numbers, 5, l.whole, 6)
                                    : cabin_transfer_velocity_within(mu, LENT(from), LENT(to), ways[way.as], LENT(way.normal), time, LENT_RUN(r, on), l.numbers, 5,
                                                                     l.whole, 6);
    bool found = l.whole[0] == CABIN_FOUND;
    if (checked(refused, &l, found ? 5 : 2, found ? 4 : 6))
        return (solution){ .refused = (int)refused };
    return found ? velocity_of(l.numbers, l.whole + 1) : stopped_at(&l);
}

number time_theta(double mu, state from, double sine, double cosine)
{
    lent l FRESH;
    return number_of(cabin_transfer_time(mu, LENT_STATE(from), sine, cosine, l.numbers, 1), &l);
}

apses apsides(double mu, state at)
{
    lent l FRESH;
    uint32_t r = cabin_apsides(mu, LENT_STATE(at), l.numbers, 2, l.whole, 1);
    bool closed = l.whole[0] == CABIN_CLOSED_ORBIT;
    return (apses){ checked(r, &l, closed ? 2 : 1, 1), closed, l.numbers[0], l.numbers[1] };
}

cdh_answer cdh(uint64_t body, double radius, double mu, timed_state active, timed_state passive, int64_t t2, int64_t t3)
{
    lent l FRESH;
    uint32_t r = cabin_constant_height(body, radius, mu, LENT_STATE(active.at), active.time, LENT_STATE(passive.at), passive.time,
                                       t2, t3, l.numbers, 5, l.whole, 1);
    bool closed = l.whole[0] == CABIN_CLOSED_ORBIT;
    return (cdh_answer){ checked(r, &l, closed ? 5 : 4, 1), vector_of(l.numbers), { 0, closed, l.numbers[3], l.numbers[4] } };
}

/* The sight line */

wheel_answer wheel(uint64_t e)
{
    lent l FRESH;
    return (wheel_answer){ checked(cabin_wheel(e, l.numbers, 2), &l, 2, 0), l.numbers[0], l.numbers[1] };
}

sight_answer sight(vector active, vector passive, uint64_t e, vector horizontal, vector vertical)
{
    lent l FRESH;
    uint32_t r = cabin_sight(LENT(active), LENT(passive), e, LENT(horizontal), LENT(vertical), l.numbers, 8);
    return (sight_answer){ checked(r, &l, 8, 0), { l.numbers[0], l.numbers[1] }, { vector_of(l.numbers + 2), vector_of(l.numbers + 5) } };
}

/* Session records */

static record record_of(const lent *l)
{
    const int64_t *w = l->whole;
    if (w[0] == CABIN_OFFSET)
        return (record){ .kind = OFFSET, .offset = w[2] };
    record r = { .kind = (int)w[0], .vehicle = (uint64_t)w[3], .byte = (uint64_t)w[4], .time = w[5] };
    memcpy(r.numbers, l->numbers, sizeof r.numbers);
    return r;
}

reading read_record(const uint8_t *session, size_t size, place from)
{
    static const place start;
    lent l FRESH;
    uint32_t refused = cabin_read(session, size, from.byte, (int16_t)from.offset, l.numbers, 6, l.whole, 6);
    int64_t kind = refused ? CABIN_END : l.whole[0];
    if (refused || kind == CABIN_END)
        return (reading){ checked(refused, &l, 0, 1), .end = !refused, .place = size > SESSION_MAX ? start : from };
    checked(refused, &l, kind == CABIN_OFFSET ? 0 : (size_t)numbers_of((int)kind), kind == CABIN_OFFSET ? 3 : 6);
    return (reading){ .place = { (size_t)l.whole[1], l.whole[2] }, .record = record_of(&l) };
}

/* In parts: what is kept of a record that is not whole lies in the stream itself. */
reading take_part(stream *s, const uint8_t *part, size_t size, size_t *taken)
{
    if (s->over)
        return s->last;
    lent l FRESH;
    uint32_t refused = cabin_take_next(s->at.byte, (int16_t)s->at.offset, s->kept, s->unfinished, RECORD_MAX, part, size, *taken,
                                       l.numbers, 6, l.whole, 7);
    if (refused) {
        s->over = true;
        s->last = (reading){ checked(refused, &l, 0, 0), .place = s->at };
        return s->last;
    }
    int64_t kind = l.whole[0];
    bool waits = kind == CABIN_WAITS;
    checked(refused, &l, waits || kind == CABIN_OFFSET ? 0 : (size_t)numbers_of((int)kind), waits || kind == CABIN_OFFSET ? 4 : 7);
    s->at = (place){ (size_t)l.whole[2], l.whole[3] };
    s->kept = waits ? (size_t)l.whole[1] : 0;
    *taken = waits ? size : (size_t)l.whole[1];
    if (waits)
        return (reading){ .used_up = true, .place = s->at };
    memmove(l.whole + 1, l.whole + 2, 5 * sizeof(int64_t));
    return (reading){ .place = s->at, .record = record_of(&l) };
}

writing append_record(uint8_t *buffer, size_t size, size_t used, const record *r)
{
    lent l FRESH;
    uint32_t refused = 14; /* for what its parameter cannot hold */
    if (r->kind == OFFSET && INT16_MIN <= r->offset && r->offset <= INT16_MAX)
        refused = cabin_write_offset(buffer, size, used, (int16_t)r->offset, l.whole, 1);
    else if (r->kind != OFFSET && r->vehicle <= UINT8_MAX && r->byte <= UINT8_MAX)
        refused = cabin_write(buffer, size, used, (uint64_t)r->kind, (uint8_t)r->vehicle, (uint8_t)r->byte, r->time, r->numbers,
                              (size_t)numbers_of(r->kind), l.whole, 1);
    return (writing){ checked(refused, &l, 0, 1), refused ? used : (size_t)l.whole[0] };
}

/* A session flown again */

replayed take_record(replay *m, const record *r)
{
    lent l FRESH;
    for (int k = 0; k < 2; k++) {
        const vehicle *v = &m->vehicles[k];
        memcpy(l.whole + 1 + 3 * k, (const int64_t[]){ v->set, (int64_t)v->body, v->time }, 3 * sizeof(int64_t));
        memcpy(l.numbers + 6 * k, ((const double[]){ v->at.r.x, v->at.r.y, v->at.r.z, v->at.v.x, v->at.v.y, v->at.v.z }), 6 * sizeof(double));
    }
    lent before = l;
    uint32_t refused = cabin_replay_step(m->mu[0], m->mu[1], (uint64_t)r->kind, (uint8_t)r->vehicle, (uint8_t)r->byte, r->time, r->numbers,
                                         (size_t)numbers_of(r->kind), l.numbers, 13, l.whole, 7);
    if (refused && memcmp(&before, &l, sizeof l) != 0)
        checked(refused, &l, 0, 0); /* which ends the driver: it is not as it was */
    for (int k = 0; !refused && k < 2; k++) {
        const int64_t *w = l.whole + 1 + 3 * k;
        const double *x = l.numbers + 6 * k;
        m->vehicles[k] = (vehicle){ w[0] == 1, (uint64_t)w[1], w[2], { vector_of(x), vector_of(x + 3) } };
    }
    return (replayed){ (int)refused, l.numbers[12] };
}

/* The listing */

enum { LINE = 40 };

size_t listing_line(const reading *read, char out[LINE])
{
    lent l FRESH;
    uint32_t refused;
    if (read->refused)
        refused = cabin_refused_line((uint8_t)read->refused, read->place.byte, (uint8_t *)out, LINE, l.whole, 1);
    else if (!read->end && !read->used_up && read->record.kind != OFFSET)
        refused = cabin_record_line((uint64_t)read->record.kind, (uint8_t)read->record.vehicle, read->record.time,
                                    (int16_t)read->place.offset, (uint8_t *)out, LINE, l.whole, 1);
    else
        return 0;
    return checked(refused, &l, 0, 1) ? 0 : (size_t)l.whole[0];
}

listed listing(const uint8_t *session, size_t size, char out[LISTING_MAX])
{
    lent l FRESH;
    checked(cabin_heading((uint8_t *)out, LINE, l.whole, 1), &l, 0, 1);
    char *at = out + l.whole[0];
    for (place from = { 0, 0 };;) {
        reading read = read_record(session, size, from);
        at += listing_line(&read, at);
        if (read.refused || read.end)
            return (listed){ (size_t)(at - out), read.refused != 0 };
        from = read.place;
    }
}

/* Settings */

versioned version_of(const settings *s, uint64_t number)
{
    lent l FRESH;
    int refused = checked(cabin_look_up(s->bytes, s->used, number, l.numbers, 4, l.whole, 1), &l, 4, 1);
    if (refused)
        return (versioned){ .refused = refused };
    const double *n = l.numbers;
    return (versioned){ .number = number, .version = { (uint64_t)l.whole[0], n[0], n[1], n[2], n[3] } };
}

static versioned stored(settings *s, uint32_t refused, const lent *l)
{
    if (checked(refused, l, 0, 2))
        return (versioned){ .refused = (int)refused };
    s->used = (size_t)l->whole[1];
    return version_of(s, (uint64_t)l->whole[0]);
}

versioned store_version(settings *s, size_t size, const version *v)
{
    lent l FRESH;
    uint32_t refused = cabin_store(s->bytes, size, s->used, v->body, v->mu, v->radius, v->closed, v->fair, l.whole, 2);
    return stored(s, refused, &l);
}

versioned go_back(settings *s, size_t size, uint64_t number)
{
    lent l FRESH;
    uint32_t refused = cabin_go_back(s->bytes, size, s->used, number, l.whole, 2);
    return stored(s, refused, &l);
}

/* The desk in text. `why` is asked so, of the line that is in hand. */

enum { TEXT = 512 };

static const char *in_hand;
static size_t in_hand_length;

static int ask(const settings *kept, char answer[TEXT])
{
    lent l FRESH;
    memset(answer, '#', TEXT);
    checked(cabin_ask(kept->bytes, kept->used, (const uint8_t *)in_hand, in_hand_length, (uint8_t *)answer, TEXT, l.whole, 1), &l, 0, 1);
    for (size_t k = (size_t)l.whole[0]; k < TEXT; k++)
        if (answer[k] != '#')
            exit(2);
    return (int)l.whole[0];
}

void say_why(pen *p, const request *asked, const settings *kept)
{
    char answer[TEXT];
    (void)asked;
    say(p, "%.*s", ask(kept, answer) - 1, answer);
}

/* The driver: the second program's own programs, but for those that make requests and sessions. */

static int desk(const char *file, bool text)
{
    char line[LINE_MAX + 1], answer[ANSWER_MAX]; /* a byte over the limit is one that shows */
    settings kept = { NULL, 0 };
    if (file && !settings_if_any(file, &kept))
        return 2;
    for (long length; (length = take_line(line, sizeof line)) >= 0;) {
        request asked;
        in_hand = line;
        in_hand_length = (size_t)length < sizeof line ? (size_t)length : sizeof line;
        if (text) {
            printf("%.*s", ask(&kept, answer), answer);
            continue;
        }
        int unread = read_request(line, (size_t)length, &asked);
        if (unread == NOTHING)
            continue;
        answer_line(unread, &asked, &kept, answer);
        puts(answer);
    }
    return 0;
}

int main(int words, char **word)
{
    uint64_t checksum;
    const char *what = words > 1 ? word[1] : "";
    if (words <= 3 && strcmp(what, "desk") == 0)
        return desk(word[2], false);
    if (words <= 3 && strcmp(what, "ask") == 0)
        return desk(word[2], true);
    if (words <= 3 && strcmp(what, "list") == 0)
        return list(word[2]);
    if (words <= 3 && strcmp(what, "show") == 0)
        return show(word[2]);
    if (words == 2 && strcmp(what, "watch") == 0)
        return watch();
    if (words == 3 && strcmp(what, "write") == 0)
        return write_session(word[2], false);
    if (words == 4 && strcmp(what, "write") == 0 && strcmp(word[2], "--replace") == 0)
        return write_session(word[3], true);
    if (words > 3 && strcmp(what, "settings") == 0)
        return settings_program(words - 2, word + 2);
    if (words > 2 && strcmp(what, "replay") == 0)
        return replay_program(words - 2, word + 2);
    if (words == 4 && strcmp(what, "bench") == 0 && bench(word[2], strtoull(word[3], NULL, 10), &checksum))
        return printf("%016" PRIX64 "\n", checksum) < 0;
    fputs("by_library desk | ask | list | show | watch | write | settings | replay | bench NAME COUNT\n", stderr);
    return 2;
}
