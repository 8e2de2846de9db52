/* 02, T-05: the elevation thumbwheel and the sight line. */
#ifndef SIGHT_H
#define SIGHT_H

#include "vector.h"

#include <stdint.h>

/* Sine and cosine of E tenths of a degree. */
typedef struct { int refused; double sine, cosine; } wheel_answer;

wheel_answer wheel(uint64_t e);

/* The points of the line from the active vehicle that lie as far out as the passive one, the larger k first. */
typedef struct { int refused; double k[2]; vector points[2]; } sight_answer;

sight_answer sight(vector active, vector passive, uint64_t e, vector horizontal, vector vertical);

#endif
