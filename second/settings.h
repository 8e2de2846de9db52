/* 02, T-11: settings that keep their history. */
#ifndef SETTINGS_H
#define SETTINGS_H

#include "conic.h"
#include "pen.h"

#include <stddef.h>
#include <stdint.h>

enum { VERSION_LENGTH = 44, VERSIONS_MAX = 64, SETTINGS_MAX = VERSION_LENGTH * VERSIONS_MAX };

/* A body and its constants, and the two fractions of the grades. */
typedef struct { uint64_t body; double mu, radius, closed, fair; } version;

/* The used part of a buffer: versions 1, 2, 3 on. */
typedef struct { uint8_t *bytes; size_t used; } settings;

typedef struct { int refused; uint64_t number; version version; } versioned;

/* How many versions there are; or 30. */
versioned latest(const settings *s);

versioned version_of(const settings *s, uint64_t number);

/* Gives terms the fractions of the version that they name: 30 or 23, or 0. Where they name none the settings are not
 * looked at. */
int take_fractions(const settings *s, terms *on);

/* Each stores one more than the latest in a buffer of so many bytes; a refusal changes none. */
versioned store_version(settings *s, size_t size, const version *v);
versioned go_back(settings *s, size_t size, uint64_t number);

void say_version(pen *p, const versioned *v);

#endif
