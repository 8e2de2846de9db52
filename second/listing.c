#include "session.h"

enum { DAY = 8640000, MINUTE = 6000 };

/* The listing's words, each put at a place and answering the place behind it. */

static char *put_text(char *at, const char *text)
{
    while (*text)
        *at++ = *text++;
    return at;
}

static char *put_whole(char *at, int64_t n)
{
    uint64_t left = n < 0 ? 0 - (uint64_t)n : (uint64_t)n;
    char digits[20];
    int count = 0;
    do
        digits[count++] = (char)('0' + left % 10);
    while ((left /= 10) > 0);
    if (n < 0)
        *at++ = '-';
    while (count > 0)
        *at++ = digits[--count];
    return at;
}

local_time local_of(int64_t time, int64_t offset)
{
    int64_t local = time + MINUTE * offset;
    return (local_time){ local / DAY - (local % DAY < 0), local % DAY + (local % DAY < 0 ? DAY : 0) };
}

static char *put_line(char *at, const record *r, int64_t offset)
{
    local_time local = local_of(r->time, offset);
    at = put_text(put_whole(at, local.day), " ");
    at = put_text(put_whole(at, local.cs), " ");
    at = put_text(put_whole(at, (int64_t)r->vehicle), " ");
    return put_text(put_text(at, name_of(r->kind)), "\n");
}

static char *put_refusal(char *at, const reading *read)
{
    at = put_whole(put_text(at, "refused "), read->refused);
    return put_text(put_whole(put_text(at, " at "), (int64_t)read->place.byte), "\n");
}

size_t listing_line(const reading *read, char out[40])
{
    char *end = out;
    if (read->refused)
        end = put_refusal(out, read);
    else if (!read->end && !read->used_up && read->record.kind != OFFSET)
        end = put_line(out, &read->record, read->place.offset);
    return (size_t)(end - out);
}

const char listing_heading[] = "day cs vehicle kind\n";

listed listing(const uint8_t *session, size_t size, char out[LISTING_MAX])
{
    char *at = put_text(out, listing_heading);
    for (place from = { 0, 0 };;) {
        reading read = read_record(session, size, from);
        at += listing_line(&read, at);
        if (read.refused || read.end)
            return (listed){ (size_t)(at - out), read.refused != 0 };
        from = read.place;
    }
}
