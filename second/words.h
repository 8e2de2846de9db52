/* The words of a line: README.md, 'The lines'. */
#ifndef WORDS_H
#define WORDS_H

#include <stdbool.h>
#include <stddef.h>
#include <stdint.h>

enum { LINE_MAX = 1000 };

/* READ, or NOTHING for a line without an answer, or the number of the first word that cannot be read. */
enum { READ = -1, NOTHING = -2 };

typedef struct { const char *at; size_t length; } span;

bool span_is(span w, const char *text);
bool span_begins(span w, const char *text);
span behind(span w, size_t bytes);

bool read_number(span w, double *out);
bool read_whole(span w, int64_t *out);
bool read_count(span w, uint64_t *out);

/* What is left of a line, and the number of the word taken last. */
typedef struct { span rest; int number; } reader;

/* Begins a line: READ with its first word, or NOTHING, or 0 for one that is too long. */
int first_word(const char *line, size_t length, reader *from, span *word);

/* An empty word at the end. */
span next_word(reader *from);

/* Takes the next word if it is this one. */
bool next_is(reader *from, const char *text);

#endif
