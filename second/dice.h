/* What the makers of requests and sessions draw from. */
#ifndef DICE_H
#define DICE_H

#include <stdbool.h>
#include <stdint.h>

void throw_from(uint64_t seed);

uint64_t roll(void);
uint64_t below(uint64_t n);
bool one_in(uint64_t n);
double uniform(double a, double b);
double scaled(int lo, int hi); /* 2^lo ≤ x < 2^hi, each power of two as often */
double either_sign(double x);

/* f64 in a row, from -NaN by -0 and +0 to NaN, so that neighbours differ by 1. */
int64_t key_of(double x);
double of_key(int64_t key);

int64_t beside(void);      /* 0, or 1 to either side */
double near(double limit); /* itself or a neighbour */
double oddity(void);       /* zeros, subnormals, infinities, NaN */

#endif
