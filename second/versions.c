/* The program about settings: list, show, store, back. */
#include "programs.h"

#include "files.h"
#include "settings.h"
#include "words.h"

#include <stdio.h>
#include <string.h>

static uint8_t bytes[SETTINGS_MAX + 1];

/* The first byte too many is enough to refuse a file. */
bool settings_if_any(const char *name, settings *s)
{
    *s = (settings){ bytes, 0 };
    return !exists(name) || load(name, bytes, sizeof bytes, &s->used);
}

bool settings_of(const char *name, settings *s)
{
    *s = (settings){ bytes, 0 };
    return load(name, bytes, sizeof bytes, &s->used);
}

static int told(const versioned *v)
{
    char line[400];
    pen p = { line };
    say_version(&p, v);
    puts(line);
    return v->refused != 0;
}

static int list_versions(const settings *s)
{
    versioned last = latest(s);
    if (last.refused)
        return told(&last);
    for (uint64_t k = 1; k <= last.number; k++) {
        versioned v = version_of(s, k);
        told(&v);
    }
    return 0;
}

/* Told when the file is there. */
static int kept(const char *name, const settings *s, const versioned *v)
{
    if (!v->refused && !appear(name, s->bytes, s->used, true))
        return 2;
    return told(v);
}

static span span_of(const char *word)
{
    return (span){ word, strlen(word) };
}

static int cannot_read(const char *word)
{
    fprintf(stderr, "cannot be read: %s\n", word);
    return 2;
}

static int store(const char *name, settings *s, char **word)
{
    version v;
    double *const numbers[] = { &v.mu, &v.radius, &v.closed, &v.fair };
    if (!read_count(span_of(word[0]), &v.body))
        return cannot_read(word[0]);
    for (int k = 0; k < 4; k++)
        if (!read_number(span_of(word[1 + k]), numbers[k]))
            return cannot_read(word[1 + k]);
    versioned stored = store_version(s, SETTINGS_MAX, &v);
    return kept(name, s, &stored);
}

static int back_to(const char *name, settings *s, const char *word)
{
    uint64_t number;
    if (!read_count(span_of(word), &number))
        return cannot_read(word);
    versioned stored = go_back(s, SETTINGS_MAX, number);
    return kept(name, s, &stored);
}

static int show_version(const settings *s, const char *word)
{
    uint64_t number;
    if (!read_count(span_of(word), &number))
        return cannot_read(word);
    versioned shown = version_of(s, number);
    return told(&shown);
}

int settings_program(int words, char **word)
{
    settings s;
    if (words < 2)
        return cannot_read("settings");
    if (!settings_if_any(word[0], &s))
        return 2;
    if (strcmp(word[1], "list") == 0 && words == 2)
        return list_versions(&s);
    if (strcmp(word[1], "show") == 0 && words == 3)
        return show_version(&s, word[2]);
    if (strcmp(word[1], "store") == 0 && words == 7)
        return store(word[0], &s, word + 2);
    if (strcmp(word[1], "back") == 0 && words == 3)
        return back_to(word[0], &s, word[2]);
    return cannot_read(word[1]);
}
