/* Spelling a request in one of the many ways, and spoiling it. */
#include "lines.h"

#include "dice.h"
#include "real.h"

#include <inttypes.h>
#include <stdio.h>

typedef struct { char words[32][72]; int count; } spelling;

static void spell_number(char *out, double x, bool decimal)
{
    if (!decimal || !(fabs(x) < 1e14)) {
        sprintf(out, one_in(8) ? "x%016" PRIx64 : "x%016" PRIX64, bits_of(x));
        return;
    }
    int whole = snprintf(NULL, 0, "%" PRIu64, (uint64_t)fabs(x));
    int places = (int)below((uint64_t)(16 - whole));
    sprintf(out, one_in(8) ? "%+.*f" : "%.*f", places, x);
}

static void spell_judgement(char *out, judgement j, bool decimal)
{
    static const char *const heads[] = { [UNDER] = "under", [LOW] = "low:", [HIGH] = "high:", [OVER] = "over" };
    out += sprintf(out, "%s", heads[j.as]);
    if (carries_time(j))
        spell_number(out, j.time, decimal);
}

static char *new_word(spelling *s)
{
    return s->words[s->count++];
}

static void spell_whole(char *out, int64_t n)
{
    sprintf(out, one_in(16) ? "%020" PRId64 : "%" PRId64, n);
}

static void spell_count(char *out, uint64_t n)
{
    sprintf(out, "%" PRIu64, n);
}

static void spell_way(spelling *s, way way, bool decimal)
{
    strcpy(new_word(s), way.as == LONG_WAY ? "long" : way.as == SHORT_WAY ? "short" : "normal");
    if (way.as != NORMAL_GIVEN)
        return;
    spell_number(new_word(s), way.normal.x, decimal);
    spell_number(new_word(s), way.normal.y, decimal);
    spell_number(new_word(s), way.normal.z, decimal);
}

static void spell_stopped_run(spelling *s, const bracket *b, bool decimal)
{
    strcpy(new_word(s), "from");
    spell_whole(new_word(s), b->lo);
    spell_judgement(new_word(s), b->below, decimal);
    spell_whole(new_word(s), b->hi);
    spell_judgement(new_word(s), b->above, decimal);
    spell_count(new_word(s), b->count);
}

static void spell_terms(spelling *s, const terms *on, bool decimal)
{
    if (on->continued)
        spell_stopped_run(s, &on->from, decimal);
    if (on->limit != UINT64_MAX || one_in(32)) {
        strcpy(new_word(s), "limit");
        spell_count(new_word(s), on->limit);
    }
    if (on->versioned) {
        strcpy(new_word(s), "version");
        spell_count(new_word(s), on->version);
    }
}

static void spell_part(spelling *s, char letter, const word *w, bool decimal)
{
    switch (letter) {
    case 'n':
        spell_number(new_word(s), w->number, decimal);
        break;
    case 'i':
        spell_whole(new_word(s), w->whole);
        break;
    case 'k':
        spell_count(new_word(s), w->count);
        break;
    case 'j':
        spell_judgement(new_word(s), w->judgement, decimal);
        break;
    case 'w':
        spell_way(s, w->way, decimal);
        break;
    default:
        spell_terms(s, &w->terms, decimal);
    }
}

static spelling spelled(const request *q, bool decimal)
{
    spelling s = { .count = 0 };
    const word *w = q->words;
    if (q->why)
        strcpy(new_word(&s), "why");
    strcpy(new_word(&s), forms[q->routine].name);
    for (const char *letter = forms[q->routine].words; *letter; letter++)
        spell_part(&s, *letter, w++, decimal);
    return s;
}

static line joined(const spelling *s)
{
    static const char *const blanks[] = { " ", "  ", "\t", " \t ", "\r", "     " };
    bool wide = one_in(16);
    line l = { .length = 0 };
    if (wide && one_in(2))
        l.bytes[l.length++] = ' ';
    for (int k = 0; k < s->count; k++) {
        const char *blank = k == 0 ? "" : wide ? blanks[below(6)] : " ";
        l.length += (size_t)sprintf(l.bytes + l.length, "%s%s", blank, s->words[k]);
    }
    if (wide && one_in(2))
        l.bytes[l.length++] = '\r';
    return l;
}

static void pad(line *l, size_t length)
{
    char with = one_in(2) ? ' ' : '7';
    while (l->length < length)
        l->bytes[l->length++] = with;
}

const char *bad_word(void)
{
    static const char *const bad[] = {
        "x", "x123", "x3FF000000000000", "x3FF00000000000000", "x3FF000000000000G", "X3FF0000000000000",
        "0x3FF0000000000000", "-x3FF0000000000000", "-", "+", ".", "1.", ".5", "-.5", "1..2", "1.2.3", "+-1",
        "--1", "1e5", "1,5", "1234567890123456", "1.234567890123456", "0000000000000001", "000000000000001",
        "nan", "inf", "low:", "low", "low:-", "high:x", "high:1.", "LOW:1", "under:1", "over:", "under", "over",
        "high:-0", "low:+0.5", "18446744073709551615", "18446744073709551616", "9223372036854775807",
        "9223372036854775808", "-9223372036854775808", "-9223372036854775809", "+5", "-0", "5-", "\xCE\xBE",
        "short", "long", "normal", "Short", "shorter", "#", "from", "limit", "From", "limits", "version", "versions",
        "why", "kepler", "theta",
    };
    return bad[below(sizeof bad / sizeof *bad)];
}

/* Ahead of one of the last words, where it mostly cannot stand, or behind them all. */
static void put_in_version(spelling *s)
{
    int behind = (int)below(s->count < 10 ? (uint64_t)s->count : 10), at = s->count - behind;
    memmove(s->words[at + 2], s->words[at], (size_t)behind * sizeof *s->words);
    s->count += 2;
    strcpy(s->words[at], "version");
    spell_count(s->words[at + 1], below(4));
}

static void spoil_words(spelling *s)
{
    int k = (int)below((uint64_t)s->count);
    switch (below(6)) {
    case 0:
        s->count = 1 + k; /* a missing word, or none missing */
        break;
    case 1:
        strcpy(s->words[s->count++], bad_word());
        break;
    case 2:
        strcpy(s->words[0], one_in(2) ? bad_word() : "Root");
        break;
    case 3:
        put_in_version(s);
        break;
    default:
        strcpy(s->words[k], bad_word());
    }
}

line spelled_line(const request *q, bool decimal)
{
    spelling s = spelled(q, decimal);
    return joined(&s);
}

line spoilt_line(const request *q, bool decimal)
{
    spelling s = spelled(q, decimal);
    if (!one_in(4))
        spoil_words(&s);
    line l = joined(&s);
    size_t place = below(l.length);
    switch (below(16)) {
    case 0:
        pad(&l, LINE_MAX - 1 + below(4));
        break;
    case 1:
        l.bytes[place] = (char)below(256);
        break;
    case 2:
        l.bytes[0] = '#';
        pad(&l, one_in(4) ? LINE_MAX - 1 + below(4) : 0);
        break;
    case 3:
        memset(l.bytes, ' ', sizeof l.bytes);
        l.length = one_in(4) ? LINE_MAX - 1 + below(4) : below(3);
        break;
    }
    for (size_t k = 0; k < l.length; k++)
        if (l.bytes[k] == '\n')
            l.bytes[k] = '\v';
    return l;
}
