/* 02, T-10: a recorded session flown again. */
#ifndef REPLAY_H
#define REPLAY_H

#include "conic.h"
#include "session.h"

typedef struct { bool set; uint64_t body; int64_t time; state at; } vehicle;

/* mu of the earth and of the moon, and the two vehicles. */
typedef struct { double mu[2]; vehicle vehicles[2]; } replay;

/* A mark's computed range less the recorded one; or a refusal, and no vehicle changed. */
typedef struct { int refused; double off; } replayed;

replayed take_record(replay *m, const record *r);

#endif
