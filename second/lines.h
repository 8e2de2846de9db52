/* Requests as lines for the desk. */
#ifndef LINES_H
#define LINES_H

#include "desk.h"

typedef struct { char bytes[2 * LINE_MAX]; size_t length; } line;

/* A word that some place of some line cannot take. */
const char *bad_word(void);

/* Numbers as bits, or as decimals where they can be. */
line spelled_line(const request *q, bool decimal);

/* The same with something wrong, mostly. */
line spoilt_line(const request *q, bool decimal);

#endif
