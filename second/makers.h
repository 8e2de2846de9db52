/* Requests that a routine could get in earnest, and records of a session. */
#ifndef MAKERS_H
#define MAKERS_H

#include "desk.h"
#include "session.h"
#include "vector.h"

request some_request(enum routine routine);
void put_vector(word *w, vector a);

/* A limit, a run to go on from, or both, behind an advance or a transfer; honest, or one of T-14's tests broken. */
void some_terms(request *q);

/* A version of the settings; mostly one of the first. */
void some_version(request *q);

/* A record by a session's offset, and such an offset. */
record some_record(int kind, int offset);
int some_offset(void);

#endif
