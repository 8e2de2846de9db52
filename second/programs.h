/* The subcommands. */
#ifndef PROGRAMS_H
#define PROGRAMS_H

#include "settings.h"

#include <stdbool.h>
#include <stdint.h>

/* Each answers the exit status. */
int list(const char *name);
int show(const char *name);
int write_session(const char *name, bool replace);
int watch(void);
int settings_program(int words, char **word); /* FILE and what behind it */
int replay_program(int words, char **word);

/* The settings of a file, with no version where it is not there, or of one that must be there; says why not. */
bool settings_if_any(const char *name, settings *s);
bool settings_of(const char *name, settings *s);

void make_requests(uint64_t seed, uint64_t count);
int make_sessions(uint64_t seed, uint64_t count, const char *folder);
int make_texts(uint64_t seed, uint64_t count, const char *folder);
int make_flights(uint64_t seed, uint64_t count, const char *folder);

/* The checksum by NAME; a count of 0 is the bench's own. False if there is no such bench. */
bool bench(const char *name, uint64_t count, uint64_t *checksum);

#endif
