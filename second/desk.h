/* The desk's line language: a line is read into a request, a request is answered by a line. */
#ifndef DESK_H
#define DESK_H

#include "conic.h"
#include "iterator.h"
#include "settings.h"
#include "words.h"

enum routine { ROOT, C, S, TRIAL, KEPLER, LAMBERT, THETA, APSIDES, WHEEL, SIGHT, CDH, ROUTINES };

/* A routine's name and a letter for each word behind it:
 * n a number, i a whole number (i64), k a count (u64), j a judgement, w the way round: short, long, or normal and three
 * numbers, t the terms, each of which may be left out: from and a stopped run, limit and a count, version and a count. */
typedef struct { const char *name, *words; } form;

extern const form forms[ROUTINES];

/* Kepler, Lambert, Time-Theta and Periapo, in front of which `why` may stand. */
bool is_solve(enum routine routine);

enum { WORDS_MAX = 19, ANSWER_MAX = 800 };

typedef union {
    double number;
    int64_t whole;
    uint64_t count;
    judgement judgement;
    way way;
    terms terms;
} word;

/* Asked for its answer, or why it refuses. */
typedef struct { bool why; enum routine routine; word words[WORDS_MAX]; } request;

/* READ, NOTHING, or the number of the first word that cannot be read. */
int read_request(const char *line, size_t length, request *out);

/* Both without a newline. */
void answer_request(const request *asked, const settings *kept, char out[ANSWER_MAX]);
void answer_line(int unread, const request *asked, const settings *kept, char out[ANSWER_MAX]);

/* What `why` takes and says too. */
vector vector_at(const word *w);
state state_at(const word *w);
void say_judgement(pen *p, judgement j);
void say_stopped_run(pen *p, const bracket *at);

void say_why(pen *p, const request *asked, const settings *kept);

#endif
