/* Requests for the desk: earnest ones, the edges of every test, and lines that cannot be read. */
#include "programs.h"

#include "dice.h"
#include "edges.h"
#include "lines.h"
#include "makers.h"
#include "real.h"

#include <stdio.h>

static bool takes_terms(const request *q)
{
    return q->routine == KEPLER || q->routine == LAMBERT;
}

/* Edges. What a number of a solve stands for: mu, r a position, v a velocity, t a time, a an angle or a part of
 * a unit vector, s a surface radius; - no number. */

static const char *const meanings[ROUTINES] = {
    [KEPLER] = "mrrrvvvt",
    [LAMBERT] = "mrrrrrrt",
    [THETA] = "mrrrvvvaa",
    [APSIDES] = "mrrrvvv",
    [SIGHT] = "rrrrrr-aaaaaa",
    [CDH] = "-smrrrvvv-rrrvvv",
};

static double some_limit(char meaning)
{
    switch (meaning) {
    case 'm':
        return near(one_in(2) ? 0x1p28 : 0x1p36);
    case 'r':
        return either_sign(near(one_in(2) ? 0x1p18 : 0x1p29));
    case 'v':
        return either_sign(near(0x1p7));
    case 's':
        return near(one_in(2) ? 0 : 0x1p29);
    case 't':
        return either_sign(near(one_in(2) ? 0 : 0x1p28));
    default:
        return either_sign(near(one_in(3) ? 0 : one_in(2) ? 1 : 1 - 0x1p-20));
    }
}

/* The last of them is a time or an angle for most, and worth more than a component. */
static size_t some_field(const request *q)
{
    const char *meaning = meanings[q->routine];
    size_t count = strlen(meaning), k = one_in(6) ? count - 1 : below(count);
    return meaning[k] == '-' ? k + 1 : k;
}

/* Where the position starts that number k is of. */
static size_t start_of_position(enum routine routine, size_t k)
{
    size_t first = routine == SIGHT ? 0 : routine != CDH ? 1 : k < 10 ? 3 : 10;
    return first + (k - first) / 3 * 3;
}

/* One number set to a limit of its row or to an oddity; a position also along one axis alone. */
static request at_a_limit(request q)
{
    size_t k = some_field(&q);
    char meaning = meanings[q.routine][k];
    if (meaning == 'r' && one_in(2))
        put_vector(q.words + start_of_position(q.routine, k), (vector){ 0, one_in(2) ? -0.0 : 0, 0 });
    q.words[k].number = one_in(4) ? oddity() : some_limit(meaning);
    return q;
}

static bool is_amount(const char *word)
{
    return strspn(word, "0123456789.-") == strlen(word) || strcmp(word, "nan") == 0 || strcmp(word, "large") == 0
           || (*word == 'x' && strlen(word) == 17) || strchr(word, ':');
}

/* A reason without its amounts. */
static void kind_of_reason(char *text, char kind[ANSWER_MAX])
{
    int length = 0, number = 0;
    for (char *word = strtok(text, " "); word; word = strtok(NULL, " "))
        if (number++ < 2 || !is_amount(word))
            length += sprintf(kind + length, "%s ", word);
}

/* The kind of an answer: its refusal, its turns or its grade, or its first word; of a reason, all but the amounts. */
static void kind_of_answer(const request *q, const char *by, char kind[ANSWER_MAX])
{
    char text[ANSWER_MAX];
    answer_request(q, &(settings){ NULL, 0 }, text);
    const char *found = strstr(text, by);
    if (q->why)
        kind_of_reason(text, kind);
    else if (text[0] == 'r')
        snprintf(kind, 16, "%.15s", text);
    else
        sscanf(found ? found + strlen(by) : text, "%15s", kind);
}

/* Halves the way from q to the request `other`, which differs in the number k alone, down to two
 * neighbours, the first with an answer of q's kind and, if other's kind differs, the second not. */
static void find_edge(request *q, request *other, size_t k, const char *by)
{
    char kind[ANSWER_MAX], at_middle[ANSWER_MAX];
    kind_of_answer(q, by, kind);
    int64_t alike = key_of(q->words[k].number), unlike = key_of(other->words[k].number);
    while ((alike < unlike ? (uint64_t)unlike - (uint64_t)alike : (uint64_t)alike - (uint64_t)unlike) > 1) {
        int64_t middle = (alike & unlike) + ((alike ^ unlike) >> 1);
        q->words[k].number = of_key(middle);
        kind_of_answer(q, by, at_middle);
        if (strcmp(kind, at_middle) == 0)
            alike = middle;
        else
            unlike = middle;
    }
    q->words[k].number = of_key(alike);
    other->words[k].number = of_key(unlike);
}

/* The count is of lines that get an answer. */

static uint64_t left;

static void emit(line l)
{
    request q;
    if (left == 0)
        return;
    fwrite(l.bytes, 1, l.length, stdout);
    putchar('\n');
    left -= read_request(l.bytes, l.length, &q) != NOTHING;
}

/* A version is named by some of them, once their edges are found: without settings it is refused with 23. */
static void emit_request(const request *q, bool decimal)
{
    request named = *q;
    if (takes_terms(q) && one_in(12))
        some_version(&named);
    if (is_solve(q->routine) && one_in(5))
        named.why = true;
    emit(spelled_line(&named, decimal));
}

/* A number of q changed by much: drawn anew, many times larger or smaller, or at a limit. */
static void emit_edge(request q)
{
    size_t k = some_field(&q);
    q.why = is_solve(q.routine) && one_in(3);
    request other = q, fresh = some_request(q.routine);
    double x = q.words[k].number, factor = scaled(0, 20);
    double far[] = { fresh.words[k].number, x * factor, x / factor, some_limit(meanings[q.routine][k]) };
    other.words[k].number = far[below(4)];
    find_edge(&q, &other, k, one_in(2) ? "turns " : "grade ");
    emit_request(&q, false);
    emit_request(&other, false);
}

static void emit_text(const char *text)
{
    line l = { .length = strlen(text) };
    memcpy(l.bytes, text, l.length);
    emit(l);
}

/* One of the stored edges, a number of it moved to a neighbour. */
static void emit_beside_an_edge(void)
{
    const char *text = edges[below(edge_count)];
    request q;
    read_request(text, strlen(text), &q);
    size_t k = below(strlen(forms[q.routine].words));
    if (forms[q.routine].words[k] == 'n')
        q.words[k].number = near(q.words[k].number);
    emit_request(&q, false);
}

/* Every setting of the thumbwheel, and one more. */
static void emit_wheel(void)
{
    for (uint64_t e = 0; e <= 3600; e++)
        emit_request(&(request){ .routine = WHEEL, .words[0].count = e }, false);
}

static void emit_why(request q)
{
    q.why = true;
    emit(spelled_line(&q, false));
}

/* Each number of a solve in turn, not finite. */
static void emit_not_finite(void)
{
    static const char *const solves[] = {
        "kepler 4294967296 4194304 0 0 0 32 0 -64", "lambert 4294967296 4194304 0 0 -4194304 0 0 400000 normal 0 0 1",
        "theta 4294967296 4194304 0 0 0 32 0 1 0", "apsides 4294967296 4194304 0 0 0 32 0",
    };
    const double odd[] = { INFINITY, -INFINITY, of_bits(0x7FF0000000000001), of_bits(UINT64_MAX) };
    for (size_t s = 0; s < sizeof solves / sizeof *solves; s++) {
        request q;
        read_request(solves[s], strlen(solves[s]), &q);
        for (size_t k = 0; forms[q.routine].words[k] == 'n'; k++) {
            request with = q;
            with.words[k].number = odd[k % 4];
            emit_why(with);
        }
        for (int k = 0; q.routine == LAMBERT && k < 3; k++) {
            request with = q;
            vector *n = &with.words[8].way.normal;
            *(k == 0 ? &n->x : k == 1 ? &n->y : &n->z) = odd[k];
            emit_why(with);
        }
    }
}

static void emit_some(void)
{
    static const enum routine often[] = {
        ROOT, C, S, TRIAL, TRIAL, KEPLER, KEPLER, KEPLER, KEPLER, LAMBERT, LAMBERT, LAMBERT, LAMBERT,
        THETA, THETA, APSIDES, SIGHT, CDH,
    };
    if (one_in(20)) {
        request q = some_request((enum routine)below(ROUTINES));
        if (takes_terms(&q) && one_in(2))
            some_terms(&q);
        if (takes_terms(&q) && one_in(4))
            some_version(&q);
        q.why = one_in(is_solve(q.routine) ? 3 : 12);
        emit(spoilt_line(&q, one_in(4)));
        return;
    }
    if (one_in(30)) {
        emit_beside_an_edge();
        return;
    }
    request q = some_request(often[below(sizeof often / sizeof *often)]);
    if (takes_terms(&q) && one_in(3))
        some_terms(&q);
    if (!meanings[q.routine] || below(10) < 6)
        emit_request(&q, one_in(4));
    else if (one_in(2)) {
        q = at_a_limit(q);
        emit_request(&q, false);
    } else
        emit_edge(q);
}

void make_requests(uint64_t seed, uint64_t count)
{
    throw_from(seed);
    left = count;
    for (size_t k = 0; k < edge_count; k++)
        emit_text(edges[k]);
    emit_wheel();
    emit_not_finite();
    while (left > 0)
        emit_some();
}
