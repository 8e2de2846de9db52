/* Requests at which a test is met with equality, or a last place decides. */
#ifndef EDGES_H
#define EDGES_H

#include <stddef.h>

extern const char *const edges[];
extern const size_t edge_count;

#endif
