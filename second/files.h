/* Files and standard input. */
#ifndef FILES_H
#define FILES_H

#include <stdbool.h>
#include <stddef.h>
#include <stdint.h>

/* The front of a file, or of standard input for no name; says why it cannot be read. */
bool load(const char *name, uint8_t *out, size_t size, size_t *got);

bool exists(const char *name);

/* A file with these bytes, whole or not at all; one that stands there stays unless it may be replaced. Says why not. */
bool appear(const char *name, const uint8_t *bytes, size_t size, bool replace);

/* A line of standard input: keeps as much as counts; answers its whole length, or -1 where no line is left. */
long take_line(char *line, size_t counts);

#endif
