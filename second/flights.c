/* Sessions of two vehicles that fly in earnest, for the replay. */
#include "programs.h"

#include "dice.h"
#include "makers.h"
#include "orbits.h"

#include <stdio.h>

enum { DAY = 8640000 };

typedef struct { uint8_t bytes[SESSION_MAX]; size_t size; int64_t time; uint64_t body; vector r, v; int offset; } flight;

static void add(flight *f, record r)
{
    f->size += write_record(f->bytes + f->size, &r);
}

static void put(record *r, int from, vector a)
{
    r->numbers[from] = a.x;
    r->numbers[from + 1] = a.y;
    r->numbers[from + 2] = a.z;
}

/* An orbit low about the body, mostly; the other vehicle follows close by. */
static void new_orbit(flight *f)
{
    double mu = f->body ? 490277800 : 39860120000;
    double r = (f->body ? 1.74e6 : 6.4e6) * uniform(1, one_in(8) ? 30 : 1.3);
    vector up = direction();
    f->r = times(r, up);
    f->v = times(sqrt(mu / r) * (one_in(8) ? uniform(0.1, 1.6) : uniform(0.98, 1.02)), across(up));
}

static void some_state(flight *f, uint64_t vehicle)
{
    record r = { .kind = STATE, .vehicle = vehicle, .byte = one_in(24) ? 1 - f->body : f->body, .time = f->time };
    put(&r, 0, plus(f->r, times(uniform(0, 3e4), direction())));
    put(&r, 3, plus(f->v, times(uniform(0, 0.5), direction())));
    if (one_in(24)) /* a state that no solve takes */
        r.numbers[below(6)] = either_sign(scaled(-10, 40));
    add(f, r);
}

static void some_burn(flight *f)
{
    record r = { .kind = BURN, .vehicle = below(2), .time = f->time };
    put(&r, 0, times(one_in(16) ? uniform(20, 300) : uniform(0, 3), direction()));
    add(f, r);
}

static void some_mark(flight *f)
{
    record r = { .kind = MARK, .vehicle = below(2), .time = f->time };
    r.numbers[0] = one_in(16) ? either_sign(scaled(-20, 60)) : uniform(0, 6e4);
    r.numbers[1] = uniform(-1, 1);
    add(f, r);
}

/* On by minutes or hours, back a little, not at all, or beyond what a solve takes. */
static void pass_time(flight *f)
{
    static const int64_t limits[] = { INT64_C(1) << 28, (INT64_C(1) << 28) + 1, INT64_C(1) << 40 };
    switch (below(16)) {
    case 0:
        f->time -= (int64_t)below(500000);
        break;
    case 1: case 2:
        break;
    case 3:
        f->time += one_in(3) ? (one_in(2) ? 1 : -1) * limits[below(3)] : (int64_t)below(40 * DAY);
        break;
    default:
        f->time += (int64_t)below(one_in(4) ? DAY : 120000);
    }
}

static void some_record_of(flight *f)
{
    pass_time(f);
    switch (below(8)) {
    case 0:
        some_state(f, below(2));
        break;
    case 1: case 2:
        some_burn(f);
        break;
    default:
        some_mark(f);
    }
}

/* 2^28 cs from the states, or one more or less. */
static void at_the_limit(flight *f)
{
    f->time += (one_in(2) ? 1 : -1) * ((INT64_C(1) << 28) + beside());
    if (one_in(2))
        some_mark(f);
    else
        some_burn(f);
}

static void make_flight(flight *f)
{
    f->time = one_in(16) ? either_sign(1) * (INT64_C(1) << 53) : (int64_t)below(2000) * DAY / 7 - 100 * DAY;
    f->body = below(2);
    new_orbit(f);
    if (one_in(3))
        add(f, (record){ .kind = OFFSET, .offset = some_offset() });
    if (!one_in(12))
        some_state(f, 0);
    if (!one_in(12))
        some_state(f, 1);
    if (one_in(6))
        at_the_limit(f);
    for (uint64_t records = below(24); records > 0; records--)
        some_record_of(f);
    if (one_in(8) && f->size > 0) /* cut, or damaged */
        *(one_in(2) ? &f->bytes[below(f->size)] : &f->bytes[f->size - 1]) = (uint8_t)roll();
    if (one_in(8) && f->size > 0)
        f->size -= 1 + below(f->size < 40 ? f->size : 40);
}

int make_flights(uint64_t seed, uint64_t count, const char *folder)
{
    throw_from(seed);
    for (uint64_t turn = 0; turn < count; turn++) {
        static flight f;
        char name[4096];
        f.size = 0;
        make_flight(&f);
        snprintf(name, sizeof name, "%s/%06llu", folder, (unsigned long long)turn);
        FILE *file = fopen(name, "wb");
        if (!file || fwrite(f.bytes, 1, f.size, file) != f.size || fclose(file) != 0) {
            perror(name);
            return 2;
        }
    }
    return 0;
}
