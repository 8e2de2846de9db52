#include "settings.h"

#include "bytes.h"
#include "tests.h"

#include <inttypes.h>

enum { VERSION_KIND = 5 };

/* The tests of a version, with 30 ahead of them all and 23, 24 and 15 behind. */
static void version_tests(failure *f, const version *v)
{
    must_be_finite(f, "mu", v->mu);
    must_be_finite(f, "radius", v->radius);
    must_be_finite(f, "closed", v->closed);
    must_be_finite(f, "fair", v->fair);
    mu_row(f, v->mu);
    must(f, 0 <= v->closed && v->closed <= 1, 22, "closed", v->closed, "in 0..1");
    must(f, 0 <= v->fair && v->fair <= 1, 22, "fair", v->fair, "in 0..1");
    must(f, v->closed <= v->fair, 22, "closed", v->closed, "at most fair");
    radius_test(f, v->radius);
    body_test(f, v->body);
}

/* A version's bytes. */

static void write_version(uint8_t *at, uint64_t number, const version *v)
{
    put_little_endian(at, 2, VERSION_LENGTH);
    put_little_endian(at + 2, 2, VERSION_KIND);
    put_little_endian(at + 4, 4, number);
    put_little_endian(at + 8, 4, v->body);
    put_little_endian(at + 12, 8, bits_of(v->mu));
    put_little_endian(at + 20, 8, bits_of(v->radius));
    put_little_endian(at + 28, 8, bits_of(v->closed));
    put_little_endian(at + 36, 8, bits_of(v->fair));
}

static version read_version(const uint8_t *at)
{
    return (version){ .body = at[8], .mu = of_bits(little_endian(at + 12, 8)),
                      .radius = of_bits(little_endian(at + 20, 8)), .closed = of_bits(little_endian(at + 28, 8)),
                      .fair = of_bits(little_endian(at + 36, 8)) };
}

static const uint8_t *place_of(const settings *s, uint64_t number)
{
    return s->bytes + (number - 1) * VERSION_LENGTH;
}

static bool stored_as(const uint8_t *at, uint64_t number)
{
    version v = read_version(at);
    failure f = { 0 };
    version_tests(&f, &v);
    return f.number == 0 && little_endian(at, 2) == VERSION_LENGTH && little_endian(at + 2, 2) == VERSION_KIND
           && little_endian(at + 4, 4) == number && little_endian(at + 9, 3) == 0;
}

/* The settings. */

static versioned refused(int number)
{
    return (versioned){ .refused = number };
}

versioned latest(const settings *s)
{
    uint64_t count = s->used / VERSION_LENGTH;
    if (s->used % VERSION_LENGTH != 0 || count > VERSIONS_MAX)
        return refused(30);
    for (uint64_t k = 1; k <= count; k++)
        if (!stored_as(place_of(s, k), k))
            return refused(30);
    return (versioned){ .number = count };
}

versioned version_of(const settings *s, uint64_t number)
{
    versioned last = latest(s);
    if (last.refused)
        return last;
    if (number < 1 || number > last.number)
        return refused(23);
    return (versioned){ .number = number, .version = read_version(place_of(s, number)) };
}

int take_fractions(const settings *s, terms *on)
{
    if (!on->versioned)
        return 0;
    versioned named = version_of(s, on->version);
    if (!named.refused)
        on->grades = (fractions){ named.version.closed, named.version.fair };
    return named.refused;
}

static versioned put_behind(settings *s, size_t size, uint64_t last, const version *v)
{
    if (last == VERSIONS_MAX)
        return refused(24);
    if (size - s->used < VERSION_LENGTH)
        return refused(15);
    write_version(s->bytes + s->used, last + 1, v);
    s->used += VERSION_LENGTH;
    return (versioned){ .number = last + 1, .version = *v };
}

versioned store_version(settings *s, size_t size, const version *v)
{
    versioned last = latest(s);
    failure f = { 0 };
    if (last.refused)
        return last;
    version_tests(&f, v);
    return f.number ? refused(f.number) : put_behind(s, size, last.number, v);
}

versioned go_back(settings *s, size_t size, uint64_t number)
{
    versioned old = version_of(s, number);
    return old.refused ? old : put_behind(s, size, latest(s).number, &old.version);
}

void say_version(pen *p, const versioned *v)
{
    const version *w = &v->version;
    if (v->refused) {
        say(p, "refused %d", v->refused);
        return;
    }
    say(p, "version %" PRIu64 " body %" PRIu64 " ", v->number, w->body);
    say_numbers(p, "mu D radius D closed D fair D", (double[]){ w->mu, w->radius, w->closed, w->fair });
}
