/* The text form of a session: 02, T-01, for people and for writing it again. */
#include "session.h"

#include "pen.h"
#include "words.h"

#include <inttypes.h>

/* Behind a kind's name: i the time or the minutes, v the vehicle, b the body, n a number. */
static const char *const shapes[] = {
    [STATE] = "ivbnnnnnn", [BURN] = "ivnnn", [MARK] = "ivnn", [OFFSET] = "i",
};

/* Showing. */

static void say_comment(pen *p, const record *r, int64_t offset)
{
    if (r->kind == OFFSET) {
        say(p, "# offset %" PRId64 " minutes\n", r->offset);
        return;
    }
    local_time local = local_of(r->time, offset);
    say(p, "# day %" PRId64 " cs %" PRId64 ": %s of vehicle %" PRIu64, local.day, local.cs, name_of(r->kind), r->vehicle);
    for (int k = 0; k < numbers_of(r->kind); k++) {
        say(p, " ");
        say_decimal(p, r->numbers[k]);
    }
    say(p, "\n");
}

static void say_part(pen *p, char letter, const record *r, int *numbers)
{
    say(p, " ");
    if (letter == 'n')
        say_bits(p, r->numbers[(*numbers)++]);
    else if (letter == 'i')
        say(p, "%" PRId64, r->kind == OFFSET ? r->offset : r->time);
    else
        say(p, "%" PRIu64, letter == 'v' ? r->vehicle : r->byte);
}

void show_record(const record *r, int64_t offset, char out[TEXT_MAX])
{
    pen p = { out };
    int numbers = 0;
    say_comment(&p, r, offset);
    say(&p, "%s", name_of(r->kind));
    for (const char *letter = shapes[r->kind]; *letter; letter++)
        say_part(&p, *letter, r, &numbers);
    say(&p, "\n");
}

/* Reading. */

static bool read_kind(span w, int *out)
{
    *out = STATE;
    while (*out <= OFFSET && !span_is(w, name_of(*out)))
        ++*out;
    return *out <= OFFSET;
}

static bool read_part(char letter, span w, record *r, int *numbers)
{
    if (letter == 'n')
        return read_number(w, &r->numbers[(*numbers)++]);
    if (letter == 'i')
        return read_whole(w, r->kind == OFFSET ? &r->offset : &r->time);
    return read_count(w, letter == 'v' ? &r->vehicle : &r->byte);
}

int read_text(const char *line, size_t length, record *out)
{
    reader from;
    span kind;
    int begun = first_word(line, length, &from, &kind), numbers = 0;
    *out = (record){ 0 };
    if (begun != READ)
        return begun;
    if (!read_kind(kind, &out->kind))
        return from.number;
    for (const char *letter = shapes[out->kind]; *letter; letter++)
        if (!read_part(*letter, next_word(&from), out, &numbers))
            return from.number;
    return next_word(&from).length == 0 ? READ : from.number;
}
