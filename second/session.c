#include "session.h"

#include "bytes.h"

enum { HEADER = 14, OFFSET_MAX = 840 };

static const int64_t time_max = INT64_C(1) << 53;

static const struct { const char *name; size_t length; int numbers; uint64_t top_byte; } kinds[] = {
    [STATE] = { "state", 62, 6, 1 },
    [BURN] = { "burn", 38, 3, 0 },
    [MARK] = { "mark", 30, 2, 0 },
    [OFFSET] = { "offset", 8, 0, 0 },
};

const char *name_of(int kind)
{
    return kinds[kind].name;
}

int numbers_of(int kind)
{
    return kinds[kind].numbers;
}

size_t length_of(int kind)
{
    return kinds[kind].length;
}

static bool offset_allowed(int64_t offset)
{
    return -OFFSET_MAX <= offset && offset <= OFFSET_MAX;
}

static bool fields_allowed(const record *r)
{
    if (r->vehicle > 1 || r->byte > kinds[r->kind].top_byte)
        return false;
    if (r->time < -time_max || r->time > time_max)
        return false;
    for (int k = 0; k < kinds[r->kind].numbers; k++)
        if (!isfinite(r->numbers[k]))
            return false;
    return true;
}

/* The fields behind length and kind, false if one is not allowed; `first` if no record is ahead. */

static bool read_offset(const uint8_t *at, bool first, record *r)
{
    r->offset = (int16_t)little_endian(at + 4, 2);
    return first && offset_allowed(r->offset) && little_endian(at + 6, 2) == 0;
}

static bool read_fields(const uint8_t *at, record *r)
{
    r->vehicle = at[4];
    r->byte = at[5];
    r->time = (int64_t)little_endian(at + 6, 8);
    for (int k = 0; k < kinds[r->kind].numbers; k++)
        r->numbers[k] = of_bits(little_endian(at + HEADER + 8 * k, 8));
    return fields_allowed(r);
}

static reading refused(int number, place at)
{
    return (reading){ .refused = number, .place = at };
}

/* The record at the front of some bytes, where its place is allowed and a byte is left. */
static reading read_front(const uint8_t *at, size_t left, place from)
{
    if (left < 4)
        return refused(11, from);
    size_t length = little_endian(at, 2);
    record r = { .kind = (int)little_endian(at + 2, 2) };
    if (length < 4)
        return refused(12, from);
    if (r.kind < STATE || r.kind > OFFSET)
        return refused(13, from);
    if (length != length_of(r.kind))
        return refused(12, from);
    if (left < length)
        return refused(11, from);
    bool offset = r.kind == OFFSET;
    if (!(offset ? read_offset(at, from.byte == 0, &r) : read_fields(at, &r)))
        return refused(14, from);
    place behind = { from.byte + length, offset ? r.offset : from.offset };
    return (reading){ .place = behind, .record = r };
}

reading read_record(const uint8_t *session, size_t size, place from)
{
    if (size > SESSION_MAX)
        return refused(12, (place){ 0, from.offset });
    if (!offset_allowed(from.offset))
        return refused(14, from);
    if (from.byte > size)
        return refused(11, from);
    if (from.byte == size)
        return (reading){ .end = true, .place = from };
    return read_front(session + from.byte, size - from.byte, from);
}

/* In parts. */

static reading ended(stream *s, reading answer)
{
    s->over = true;
    s->last = answer;
    return answer;
}

/* The bytes of this and of the parts ahead of it, up to 2^63 - 1. */
static bool within_count(const stream *s, size_t left)
{
    return left <= (uint64_t)INT64_MAX - (s->at.byte + s->kept);
}

reading take_part(stream *s, const uint8_t *part, size_t size, size_t *taken)
{
    if (s->over)
        return s->last;
    if (!within_count(s, size - *taken))
        return ended(s, refused(15, s->at));
    while (*taken < size) {
        s->unfinished[s->kept++] = part[(*taken)++];
        reading read = read_front(s->unfinished, s->kept, s->at);
        if (read.refused == 11)
            continue;
        if (read.refused)
            return ended(s, read);
        s->at = read.place;
        s->kept = 0;
        return read;
    }
    return (reading){ .used_up = true, .place = s->at };
}

reading end_parts(stream *s)
{
    if (s->over)
        return s->last;
    return ended(s, s->kept ? refused(11, s->at) : (reading){ .end = true, .place = s->at });
}

/* Writing. */

static bool allowed(const record *r, bool first)
{
    return r->kind == OFFSET ? first && offset_allowed(r->offset) : fields_allowed(r);
}

writing append_record(uint8_t *buffer, size_t size, size_t used, const record *r)
{
    size_t end = size < SESSION_MAX ? size : SESSION_MAX;
    if (!allowed(r, used == 0))
        return (writing){ 14, used };
    if (used > end || end - used < length_of(r->kind))
        return (writing){ 15, used };
    return (writing){ 0, used + write_record(buffer + used, r) };
}

size_t write_record(uint8_t out[RECORD_MAX], const record *r)
{
    put_little_endian(out, 2, length_of(r->kind));
    put_little_endian(out + 2, 2, (uint64_t)r->kind);
    if (r->kind == OFFSET) {
        put_little_endian(out + 4, 4, (uint16_t)r->offset);
        return length_of(r->kind);
    }
    out[4] = (uint8_t)r->vehicle;
    out[5] = (uint8_t)r->byte;
    put_little_endian(out + 6, 8, (uint64_t)r->time);
    for (int k = 0; k < kinds[r->kind].numbers; k++)
        put_little_endian(out + HEADER + 8 * k, 8, bits_of(r->numbers[k]));
    return length_of(r->kind);
}
