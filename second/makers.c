/* A request of each routine that it could get in earnest. */
#include "makers.h"

#include "conic.h"
#include "dice.h"
#include "orbits.h"
#include "real.h"

void put_vector(word *w, vector a)
{
    w[0].number = a.x;
    w[1].number = a.y;
    w[2].number = a.z;
}

static void put_orbit(request *q, const orbit *o)
{
    q->words[0].number = o->mu;
    put_vector(q->words + 1, o->at.r);
    put_vector(q->words + 4, o->at.v);
}

static double some_xi(void)
{
    static const double limits[] = { -50, 40, 1, -1, 4, -4, 16, -16, 0 };
    switch (below(4)) {
    case 0:
        return near(limits[below(sizeof limits / sizeof *limits)]);
    case 1:
        return either_sign(scaled(-40, 8));
    case 2:
        return one_in(3) ? oddity() : uniform(-1, 1);
    default:
        return uniform(-50.5, 40.5);
    }
}

static double some_square(void)
{
    switch (below(4)) {
    case 0:
        return oddity();
    case 1: {
        double whole = (double)below(UINT64_C(1) << 26);
        return near(whole * whole);
    }
    case 2:
        return either_sign(of_bits(below(UINT64_C(1) << 53)));
    default:
        return of_bits(one_in(8) ? roll() : roll() & ~sign_bit);
    }
}

static judgement some_end(double asked, bool upper)
{
    if (!isfinite(asked) || one_in(6))
        return (judgement){ upper ? OVER : UNDER, 0 };
    double away = one_in(16) ? 0 : one_in(8) ? 0x1p28 - fabs(asked) : scaled(-30, 27);
    double t = upper ? asked + away : asked - away;
    if (one_in(8))
        t = near(asked);
    if (one_in(24))
        t = one_in(2) ? oddity() : either_sign(near(0x1p28));
    return (judgement){ upper == !one_in(24) ? HIGH : LOW, t };
}

static int64_t some_whole(void)
{
    static const int64_t limits[] = { 0, INT64_C(1) << 37, -(INT64_C(1) << 37), INT64_MAX - 1, INT64_MIN + 1 };
    if (one_in(8)) {
        int64_t limit = limits[below(5)];
        return limit + beside();
    }
    return (int64_t)either_sign(scaled(0, 37));
}

static void some_trial(request *q)
{
    double asked = one_in(10) ? 0 : either_sign(scaled(-20, 27));
    if (one_in(16))
        asked = one_in(2) ? oddity() : either_sign(near(0x1p28));
    int64_t lo = some_whole(), hi = one_in(3) ? some_whole() : lo / 2 + (int64_t)scaled(0, 36);
    if (one_in(8) && lo < INT64_MAX - 2)
        hi = lo + (int64_t)below(3);
    if (lo > hi && !one_in(16)) {
        int64_t other = lo;
        lo = hi, hi = other;
    }
    q->words[0].number = asked;
    q->words[1].whole = lo;
    q->words[2].whole = hi;
    q->words[3].judgement = some_end(asked, false);
    q->words[4].judgement = some_end(asked, true);
    q->words[5].count = one_in(8) ? 0 - below(3) : 1 + below(74);
}

/* The orbit's own normal or its opposite, mostly; or one across, of a length about its limit, or in the plane. */
static vector some_normal(const orbit *o)
{
    vector upright = cross(o->at.r, o->at.v), normal = over(upright, length(upright));
    if (!finite_vector(normal) || one_in(8))
        normal = direction();
    if (one_in(8))
        normal = over(o->at.r, length(o->at.r));
    if (one_in(4))
        normal = negated(normal);
    return one_in(8) ? times(1 + either_sign(0x1p-40 * uniform(0.99, 1.01)), normal) : normal;
}

/* In line or nearly so, on either side of the body; with the whole powers of two, in line to the bit. */
static vector opposite(vector from)
{
    double away = one_in(8) ? 0 : scaled(-24, -8);
    vector other = times(one_in(8) ? 1 : -1, from);
    return times(scaled(-2, 2), plus(other, times(away * length(from), across(over(from, length(from))))));
}

static vector with_some_sign(vector a)
{
    return (vector){ a.x, a.y == 0 ? either_sign(0) : a.y, a.z == 0 ? either_sign(0) : a.z };
}

/* Both positions and the normal on the axes, zeros of either sign. */
static void put_in_line(word *w)
{
    put_vector(w + 1, with_some_sign((vector){ 0x1p22, 0, 0 }));
    put_vector(w + 4, with_some_sign((vector){ -0x1p22 * scaled(-1, 1), one_in(4) ? 0x1p12 : 0, 0 }));
    w[8].way.normal = with_some_sign((vector){ one_in(4), 0, 0 });
    if (w[8].way.normal.x == 0)
        w[8].way.normal.z = either_sign(1);
}

static void some_given_normal(request *q, const orbit *o)
{
    q->words[8].way = (way){ NORMAL_GIVEN, some_normal(o) };
    if (one_in(2))
        put_vector(q->words + 4, opposite(o->at.r));
    if (one_in(8))
        put_in_line(q->words);
}

/* From a point of an orbit to a later one, mostly in the orbit's own time and way round. */
static void some_transfer(request *q)
{
    orbit o = some_orbit();
    double t = some_time(&o);
    solution later = kepler(o.mu, o.at, t);
    double r2 = length(o.at.r) * scaled(-2, 2);
    vector to = times(r2, direction());
    if (!later.refused && !one_in(16))
        to = later.r;
    bool short_way = dot(cross(o.at.r, to), cross(o.at.r, o.at.v)) >= 0;
    if (one_in(4))
        t = t * scaled(-4, 10);
    put_orbit(q, &o);
    put_vector(q->words + 4, to);
    q->words[7].number = t;
    q->words[8].way = (way){ .as = short_way == one_in(8) ? LONG_WAY : SHORT_WAY };
    if (one_in(3))
        some_given_normal(q, &o);
    q->words[9].terms = usual_terms;
}

/* The half tangent at which an orbit stops having a time, or starts to, between a and b. */
static double last_angle(const orbit *o, double a, double b)
{
    int refused = time_theta(o->mu, o->at, sine_of(a), cosine_of(a)).refused;
    for (int k = 0; k < 60; k++) {
        double h = (a + b) / 2;
        if (time_theta(o->mu, o->at, sine_of(h), cosine_of(h)).refused == refused)
            a = h;
        else
            b = h;
    }
    return one_in(2) ? a : b;
}

static void some_angle(word *w, const orbit *o)
{
    double h = either_sign(one_in(8) ? scaled(-10, 10) : scaled(-4, 5));
    double less = scaled(-4, 0), more = scaled(0, 5);
    if (one_in(o->energy > 2 ? 2 : 8))
        h = last_angle(o, less, more);
    if (one_in(4))
        h = h * (1 + either_sign(scaled(-50, -8)));
    double longer = one_in(8) ? 1 + either_sign(0x1p-41 * uniform(0.99, 1.01)) : 1;
    w[0].number = sine_of(h) * longer;
    w[1].number = cosine_of(h) * longer;
}

static uint64_t some_wheel(void)
{
    static const uint64_t edges[] = { 0, 900, 1800, 2700, 3599, 3600, 3601, UINT64_MAX };
    return one_in(8) ? edges[below(8)] : below(3600);
}

/* A line of sight from below or above to the other orbit, along the vehicle's own horizon and upright; one in four
 * in whole powers of two, where roots are equal. */
static void some_sight(word *w)
{
    orbit o = some_orbit();
    vector up = over(o.at.r, length(o.at.r)), along = across(up);
    double other = length(o.at.r) * (1 + either_sign(scaled(-30, one_in(4) ? 0 : -4)));
    vector passive = times(other, direction());
    if (one_in(4)) {
        o.at.r = (vector){ 0x1p22, 0, 0 }, up = (vector){ 1, 0, 0 }, along = (vector){ 0, one_in(2) ? 1 : -1, 0 };
        passive = (vector){ 0, 0, one_in(2) ? 0x1p22 : near(0x1p22) };
    }
    if (one_in(8))
        up = times(1 + either_sign(0x1p-40 * uniform(0.99, 1.01)), up);
    if (one_in(8))
        along = times(1 + either_sign(0x1p-40 * uniform(0.99, 1.01)), along);
    put_vector(w, o.at.r);
    put_vector(w + 3, passive);
    w[6].count = some_wheel();
    put_vector(w + 7, along);
    put_vector(w + 10, up);
}

/* A second orbit in line with one of these, at a distance in its plane or nearly so; a few steps of a grid of whole cs away. */
static state beside_orbit(const orbit *o)
{
    vector r = o->at.r, n = cross(r, o->at.v), up = over(r, length(r)), along = over(cross(n, r), length(n) * length(r));
    double h = either_sign(one_in(8) ? scaled(-8, -4) : scaled(-4, 4)), higher = 1 + either_sign(scaled(-9, one_in(8) ? 2 : -4));
    vector to = plus(times(cosine_of(h), up), times(sine_of(h), along));
    vector forward = plus(times(-sine_of(h), up), times(cosine_of(h), along));
    if (one_in(2))
        to = plus(to, times(scaled(-12, -4), direction()));
    double r2 = length(r) * fabs(higher), speed = sqrt(o->mu / r2) * uniform(0.98, 1.02);
    return (state){ times(r2, over(to, length(to))), times(speed, forward) };
}

static int64_t wrapped_sum(int64_t a, int64_t b)
{
    return (int64_t)((uint64_t)a + (uint64_t)b);
}

static int64_t some_whole_time(int64_t about)
{
    static const int64_t limits[] = { INT64_C(1) << 28, (INT64_C(1) << 28) + 1, -(INT64_C(1) << 28), -(INT64_C(1) << 28) - 1 };
    if (one_in(12))
        return wrapped_sum(about, -limits[below(4)]);
    if (one_in(32))
        return one_in(2) ? INT64_MIN : INT64_MAX;
    return one_in(4) ? about : wrapped_sum(about, (int64_t)below(2000000) - 1000000);
}

/* A passive vehicle on a nearly circular orbit, mostly, and an active one that is to fly beside it. */
static void some_cdh(word *w)
{
    orbit o = some_orbit();
    uint64_t body = below(2);
    int64_t t2 = one_in(16) ? (one_in(2) ? INT64_MAX : INT64_MIN) : (int64_t)below(1000000000) - 500000000;
    if (!one_in(4)) {
        double r = (body ? 1.74e6 : 6.4e6) * uniform(1.03, 1.5);
        vector up = direction();
        o = (orbit){ body ? 490277800 : 39860120000, 1, { times(r, up), times(1, across(up)) } };
        o.at.v = plus(times(sqrt(o.mu / r) * uniform(0.95, 1.15), o.at.v), times(uniform(-1, 1), up));
    }
    state active = beside_orbit(&o);
    w[0].count = one_in(32) ? 2 + below(3) : body;
    w[1].number = one_in(32) ? oddity() : one_in(8) ? length(o.at.r) * uniform(0.1, 1) : body ? 1738090 : 6378165;
    w[2].number = o.mu;
    put_vector(w + 3, active.r);
    put_vector(w + 6, active.v);
    w[9].whole = some_whole_time(t2);
    put_vector(w + 10, o.at.r);
    put_vector(w + 13, o.at.v);
    w[16].whole = some_whole_time(t2);
    w[17].whole = t2;
    w[18].whole = one_in(8) ? INT64_MAX : t2 > INT64_MAX - 70000 ? t2 : t2 + (one_in(4) ? 60000 + beside() : 600000);
}

/* An orbit so wide that the grid ends within a turn, in the time behind that end or beside it. */
static void put_wide(request *q)
{
    orbit o = { .mu = uniform(0x1p35, 0x1p36) };
    vector up = direction();
    double r = uniform(0x1.9Ap28, 0x1p29), speed = sqrt(o.mu / r);
    o.at = (state){ times(r, up), times(speed * uniform(0.99, 1.01), across(up)) };
    put_orbit(q, &o);
    q->words[7].number = either_sign(6.283185307179586 * r / speed * uniform(0.9, 1));
}

request some_request(enum routine routine)
{
    request q = { .routine = routine };
    orbit o = some_orbit();
    switch (routine) {
    case ROOT:
        q.words[0].number = some_square();
        break;
    case C: case S:
        q.words[0].number = some_xi();
        break;
    case TRIAL:
        some_trial(&q);
        break;
    case LAMBERT:
        some_transfer(&q);
        break;
    case WHEEL:
        q.words[0].count = some_wheel();
        break;
    case SIGHT:
        some_sight(q.words);
        break;
    case CDH:
        some_cdh(q.words);
        break;
    default:
        put_orbit(&q, &o);
        if (routine == KEPLER) {
            q.words[7].number = either_sign(some_time(&o));
            q.words[8].terms = usual_terms;
            if (one_in(48))
                put_wide(&q);
        }
        if (routine == THETA)
            some_angle(q.words + 7, &o);
    }
    return q;
}
