/* Writing an answer's words. */
#ifndef PEN_H
#define PEN_H

/* Where the next word goes. */
typedef struct { char *at; } pen;

void say(pen *p, const char *text, ...);

/* D: six places, cut towards zero. */
void say_decimal(pen *p, double x);

/* X: the bits. */
void say_bits(pen *p, double x);

/* The shape with a decimal for each D, then the bits of the same numbers. */
void say_numbers(pen *p, const char *shape, const double numbers[]);

#endif
