/* The program that flies a session again. */
#include "programs.h"

#include "files.h"
#include "pen.h"
#include "replay.h"
#include "words.h"

#include <inttypes.h>
#include <stdio.h>
#include <string.h>

static void say_result(const record *r, int64_t offset, replayed a)
{
    static const char *const results[] = { [STATE] = "set", [BURN] = "done" };
    char line[200];
    pen p = { line };
    local_time local = local_of(r->time, offset);
    say(&p, "%" PRId64 " %" PRId64 " %" PRIu64 " %s ", local.day, local.cs, r->vehicle, name_of(r->kind));
    if (a.refused)
        say(&p, "refused %d", a.refused);
    else if (r->kind == MARK)
        say_numbers(&p, "off D", &a.off);
    else
        say(&p, "%s", results[r->kind]);
    puts(line);
}

static void say_vehicle(const replay *m, int number)
{
    const vehicle *v = &m->vehicles[number];
    char line[400];
    pen p = { line };
    say(&p, "vehicle %d ", number);
    if (!v->set)
        say(&p, "unset");
    else {
        say(&p, "%s at %" PRId64 " ", v->body ? "moon" : "earth", v->time);
        say_numbers(&p, "r D D D v D D D", (double[]){ v->at.r.x, v->at.r.y, v->at.r.z, v->at.v.x, v->at.v.y, v->at.v.z });
    }
    puts(line);
}

/* The reader's refusal, or 0. */
static int say_records(replay *m, const uint8_t *session, size_t size)
{
    puts("day cs vehicle kind result");
    for (place from = { 0, 0 };;) {
        reading read = read_record(session, size, from);
        if (read.refused)
            printf("refused %d at %zu\n", read.refused, read.place.byte);
        if (read.refused || read.end)
            return read.refused;
        if (read.record.kind != OFFSET)
            say_result(&read.record, read.place.offset, take_record(m, &read.record));
        from = read.place;
    }
}

static int fly(const char *name, replay *m)
{
    static uint8_t session[SESSION_MAX + 1];
    size_t size;
    if (!load(name, session, sizeof session, &size))
        return 2;
    int refused = say_records(m, session, size);
    say_vehicle(m, 0);
    say_vehicle(m, 1);
    return refused != 0;
}

/* mu of two versions: 30, 23 for either, then 14 where a version is not of the body that it is named for. */
static int mu_of_versions(const settings *s, const uint64_t numbers[2], double mu[2])
{
    int wrong_body = 0;
    for (int body = 0; body < 2; body++) {
        versioned v = version_of(s, numbers[body]);
        if (v.refused)
            return v.refused;
        mu[body] = v.version.mu;
        wrong_body |= v.version.body != (uint64_t)body;
    }
    return wrong_body ? 14 : 0;
}

static span span_of(const char *word)
{
    return (span){ word, strlen(word) };
}

static int cannot_read(const char *word)
{
    fprintf(stderr, "cannot be read: %s\n", word);
    return 2;
}

static int fly_by_versions(const char *name, const char *file, char **word)
{
    replay m = { 0 };
    settings s;
    uint64_t numbers[2];
    for (int k = 0; k < 2; k++)
        if (!read_count(span_of(word[k]), &numbers[k]))
            return cannot_read(word[k]);
    if (!settings_of(file, &s))
        return 2;
    int refused = mu_of_versions(&s, numbers, m.mu);
    if (!refused)
        return fly(name, &m);
    printf("refused %d\n", refused);
    return 1;
}

static int fly_by_numbers(const char *name, char **word)
{
    replay m = { 0 };
    for (int k = 0; k < 2; k++)
        if (!read_number(span_of(word[k]), &m.mu[k]))
            return cannot_read(word[k]);
    return fly(name, &m);
}

int replay_program(int words, char **word)
{
    if (words == 1)
        return fly(word[0], &(replay){ .mu = { 39860120000, 490277800 } });
    if (words == 3)
        return fly_by_numbers(word[0], word + 1);
    if (words == 5 && strcmp(word[1], "--settings") == 0)
        return fly_by_versions(word[0], word[2], word + 3);
    return cannot_read("replay");
}
