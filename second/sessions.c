/* Small sessions, whole, cut, damaged and over-long, for the listing. */
#include "programs.h"

#include "dice.h"
#include "makers.h"

#include <stdio.h>
#include <string.h>

typedef struct { uint8_t bytes[SESSION_MAX + 4096]; size_t size; int offset; } session;

/* Whole records. */

enum { DAY = 8640000, MINUTE = 6000 };

static const int64_t time_max = INT64_C(1) << 53;

static int64_t some_time(int offset)
{
    static const int64_t times[] = {
        0, 64, -1, DAY - 1, DAY, -DAY, -DAY - 1, INT64_C(1) << 53, -(INT64_C(1) << 53),
    };
    switch (below(4)) {
    case 0:
        return times[below(sizeof times / sizeof *times)];
    case 1:
        return (int64_t)(roll() >> 10) - time_max;
    case 2: /* about a local midnight */
        return ((int64_t)below(5) - 2) * DAY - MINUTE * offset + (int64_t)below(3) - 1;
    default:
        return (int64_t)below(17280000000) - 8640000000;
    }
}

record some_record(int kind, int offset)
{
    record r = { .kind = kind, .offset = offset, .vehicle = below(2) };
    r.time = some_time(offset);
    r.byte = kind == STATE ? below(2) : 0;
    for (int k = 0; k < numbers_of(kind); k++)
        r.numbers[k] = uniform(-0x1p23, 0x1p23);
    return r;
}

int some_offset(void)
{
    return one_in(4) ? (int)below(3) * 840 - 840 : (int)below(1681) - 840;
}

static void add(session *s, int kind)
{
    record r = some_record(kind, s->offset);
    s->size += write_record(s->bytes + s->size, &r);
}

static void add_offset(session *s)
{
    s->offset = some_offset();
    add(s, OFFSET);
}

static void add_some(session *s, uint64_t records)
{
    while (records-- > 0)
        add(s, 1 + (int)below(3));
}

/* One of each kind, with an offset or without, cut at each place in turn. */
static void make_cut(session *s, uint64_t turn)
{
    int first = (int)(turn / 139 % 3);
    if (turn / 139 % 2 == 0)
        add_offset(s);
    for (int k = 0; k < 3; k++)
        add(s, 1 + (first + k) % 3);
    if (s->size > turn % 139)
        s->size = turn % 139;
}

/* Damage. */

static size_t place_of_some(const session *s)
{
    size_t places[64], count = 0;
    for (size_t at = 0; at < s->size && count < 64; at += s->bytes[at])
        places[count++] = at;
    return places[below(count)];
}

/* One byte of a record's header changed, by a little or by chance, or the top of a number. */
static void damage(session *s)
{
    size_t place = place_of_some(s), length = s->bytes[place], field = below(8);
    if (field == 7 && length > 14) {
        static const uint8_t tops[] = { 0x7F, 0xFF };
        size_t number = place + 14 + 8 * below((length - 14) / 8);
        memset(s->bytes + number, 0, one_in(2) ? 6 : 0); /* infinite, or not a number */
        s->bytes[number + 7] = tops[below(2)];
        s->bytes[number + 6] = (uint8_t)(0xEF + below(3));
        return;
    }
    uint8_t *byte = s->bytes + place + (field < 6 ? field : below(length < 14 ? length : 14));
    *byte = (uint8_t)(below(2) ? roll() : *byte + below(5) - 2);
}

/* Two different faults in one record: only the order of the reader's tests says which of them is told. */

enum fault { SHORT_LENGTH, WRONG_LENGTH, KIND, VEHICLE, BYTE, TIME, NUMBER, CUT, FAULTS };

static void inflict(session *s, size_t place, enum fault fault)
{
    uint8_t *at = s->bytes + place;
    switch (fault) {
    case SHORT_LENGTH:
        at[0] = (uint8_t)below(4);
        break;
    case WRONG_LENGTH:
        at[0] = (uint8_t)(4 + below(90));
        break;
    case KIND:
        at[2] = (uint8_t)(one_in(2) ? 0 : 4 + below(3));
        break;
    case VEHICLE:
        at[4] = (uint8_t)(2 + below(2));
        break;
    case BYTE:
        at[5] = 2;
        break;
    case TIME:
        at[13] = 0x40;
        break;
    case NUMBER:
        at[20] = 0xF0;
        at[21] = 0x7F;
        break;
    default: /* behind length and kind, or anywhere behind them */
        s->size = place + (one_in(3) ? 4 : 4 + below(26));
    }
}

static void damage_twice(session *s)
{
    size_t place = place_of_some(s);
    enum fault first = (enum fault)below(FAULTS);
    enum fault second = (enum fault)((first + 1 + below(FAULTS - 1)) % FAULTS);
    inflict(s, place, first);
    inflict(s, place, second);
}

/* T-03's edges: the offset of the first record at its limits and beyond, a second or late offset record with
 * what else may be wrong with it, a time at its limit and beyond. */
static void at_an_edge(session *s)
{
    static const int offsets[] = { 840, -840, 841, -841, INT16_MAX, INT16_MIN, 0x0100 };
    record r = { .kind = OFFSET, .offset = offsets[below(7)] };
    size_t place = place_of_some(s);
    switch (below(4)) {
    case 0:
        s->size = write_record(s->bytes, &r);
        add_some(s, 2);
        break;
    case 1:
        r.offset = one_in(4) ? r.offset : 60;
        s->size = place + write_record(s->bytes + place, &r);
        s->bytes[place + 6 + below(2)] = one_in(4);
        s->size -= one_in(4) ? 1 + below(4) : 0;
        break;
    case 2:
        s->bytes[place] = one_in(2) ? 8 : 14; /* kind 4 with a length that is not its own, or all but its length */
        s->bytes[place + 2] = OFFSET;
        break;
    default:
        r = (record){ .kind = MARK, .time = time_max + (int64_t)below(3) - 1 };
        r.time = one_in(2) ? r.time : -r.time;
        s->size += write_record(s->bytes + s->size, &r);
    }
}

/* 65,536 bytes of whole records and a few bytes more or less. */
static void make_long(session *s)
{
    if (one_in(2))
        add_offset(s);
    add(s, BURN);
    add(s, BURN);
    while (s->size + length_of(MARK) <= SESSION_MAX)
        add(s, MARK);
    switch (below(4)) {
    case 0:
        s->bytes[s->size++] = 0;
        break;
    case 1:
        s->size--;
        break;
    case 2:
        add_some(s, 3);
        break;
    }
}

static void make_small(session *s, uint64_t turn)
{
    if (turn % 5 == 0) {
        make_cut(s, turn / 5);
        return;
    }
    if (one_in(2))
        add_offset(s);
    add_some(s, turn % 5 == 1 ? below(20) : 1 + below(8));
    switch (turn % 5) {
    case 2:
        damage(s);
        break;
    case 3:
        damage_twice(s);
        break;
    case 4:
        at_an_edge(s);
        break;
    }
}

int make_sessions(uint64_t seed, uint64_t count, const char *folder)
{
    static session s;
    throw_from(seed);
    for (uint64_t turn = 0; turn < count; turn++) {
        char name[4096];
        s.size = 0;
        s.offset = 0;
        if (turn % 100 == 99)
            make_long(&s);
        else
            make_small(&s, turn);
        snprintf(name, sizeof name, "%s/%06llu", folder, (unsigned long long)turn);
        FILE *file = fopen(name, "wb");
        if (!file || fwrite(s.bytes, 1, s.size, file) != s.size || fclose(file) != 0) {
            perror(name);
            return 2;
        }
    }
    return 0;
}
