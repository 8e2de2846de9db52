/* Sessions as text, for the writer: whole, with lines that cannot be read or are refused, and over-long. */
#include "programs.h"

#include "dice.h"
#include "lines.h"
#include "makers.h"
#include "real.h"

#include <inttypes.h>
#include <stdio.h>

/* A number as bits or with a few places. */
static int spell_number(char *out, double x)
{
    if (one_in(3) && fabs(x) < 1e8)
        return sprintf(out, " %.*f", (int)below(7), x);
    return sprintf(out, one_in(8) ? " x%016" PRIx64 : " x%016" PRIX64, bits_of(x));
}

static void spell_record(char *out, const record *r)
{
    out += sprintf(out, "%s", name_of(r->kind));
    if (r->kind == OFFSET) {
        sprintf(out, " %" PRId64, r->offset);
        return;
    }
    out += sprintf(out, " %" PRId64 " %" PRIu64, r->time, r->vehicle);
    if (r->kind == STATE)
        out += sprintf(out, " %" PRIu64, r->byte);
    for (int k = 0; k < numbers_of(r->kind); k++)
        out += spell_number(out, r->numbers[k]);
}

/* Faults that are refused. */

static void forbid(record *r)
{
    static const int64_t times[] = { (INT64_C(1) << 53) + 1, -(INT64_C(1) << 53) - 1, INT64_MAX, INT64_MIN };
    static const int64_t offsets[] = { 841, -841, INT64_MAX, INT64_MIN, 65536, 65536 + 60 };
    r->offset = offsets[below(6)];
    switch (below(5)) {
    case 0:
        r->vehicle = one_in(2) ? 2 : UINT64_C(1) << (8 * (1 + below(7)));
        break;
    case 1:
        r->byte = one_in(2) ? 2 : UINT64_C(1) << (8 * (1 + below(7)));
        break;
    case 2:
        r->time = times[below(4)];
        break;
    case 3:
        r->numbers[0] = oddity();
        break;
    default:
        r->kind = OFFSET; /* not first, or not allowed */
        r->offset = one_in(2) ? 60 : r->offset;
    }
}

/* One word of a line changed, taken off or put behind. */
static void spoil(char *text)
{
    char words[16][72], *at = text;
    int count = 0, read;
    while (count < 14 && sscanf(at, "%71s%n", words[count], &read) == 1)
        at += read, count++;
    int k = (int)below((uint64_t)count);
    if (one_in(4))
        count = 1 + k;
    else
        strcpy(words[one_in(4) ? count++ : k], bad_word());
    text[0] = 0;
    for (k = 0; k < count; k++)
        strcat(strcat(text, k ? " " : ""), words[k]);
}

static void some_filler(FILE *file)
{
    static const char *const fillers[] = { "", "# a word for people", " \t", "#", "\r", "# state 1 2 3" };
    fprintf(file, "%s\n", fillers[below(6)]);
}

/* Blanks behind a record: none, a few, or about as many as a line may have. */
static void put_blanks(FILE *file, size_t length)
{
    static const char *const ends[] = { "", " ", "\r", "\t " };
    if (one_in(64))
        fprintf(file, "%*s", (int)(998 - length + below(5)), "");
    else
        fputs(one_in(8) ? ends[below(4)] : "", file);
}

static void put_record(FILE *file, const record *r, bool spoilt)
{
    char text[1200];
    spell_record(text, r);
    if (spoilt)
        spoil(text);
    fputs(text, file);
    put_blanks(file, strlen(text));
    fputc('\n', file);
}

static void put_small(FILE *file)
{
    uint64_t count = below(12), wrong = one_in(2) ? below(12) : UINT64_MAX;
    int offset = one_in(2) ? some_offset() : 0;
    for (uint64_t k = 0; k < count; k++) {
        record r = some_record(k == 0 && offset ? OFFSET : 1 + (int)below(3), offset);
        bool spoilt = k == wrong && one_in(2);
        if (one_in(16))
            r.numbers[0] = oddity();
        if (k == wrong && !spoilt)
            forbid(&r);
        if (one_in(4))
            some_filler(file);
        put_record(file, &r, spoilt);
    }
}

static size_t put_plain(FILE *file, const record *r)
{
    char text[1200];
    spell_record(text, r);
    fprintf(file, "%s\n", text);
    return length_of(r->kind);
}

/* Records up to where a mark is too long, by 30 bytes (behind two burns), by two (behind a state more) or by any
 * number; and mostly a record more. */
static void put_long(FILE *file)
{
    record burn = some_record(BURN, 0), mark = some_record(MARK, 0), state = some_record(STATE, 0);
    size_t used = put_plain(file, &burn) + put_plain(file, &burn);
    for (uint64_t states = one_in(2) ? below(2) : below(30); states > 0; states--)
        used += put_plain(file, &state);
    while (used + length_of(MARK) <= SESSION_MAX)
        used += put_plain(file, &mark);
    if (one_in(4))
        mark.vehicle = 2; /* 14 comes before 15 */
    if (!one_in(4))
        put_plain(file, one_in(4) ? &burn : &mark);
}

int make_texts(uint64_t seed, uint64_t count, const char *folder)
{
    throw_from(seed);
    for (uint64_t turn = 0; turn < count; turn++) {
        char name[4096];
        snprintf(name, sizeof name, "%s/%06llu", folder, (unsigned long long)turn);
        FILE *file = fopen(name, "wb");
        if (file && turn % 20 == 19)
            put_long(file);
        else if (file)
            put_small(file);
        if (!file || fclose(file) != 0) {
            perror(name);
            return 2;
        }
    }
    return 0;
}
