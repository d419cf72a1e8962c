/* All points of a kind through PROJ's library, as arrays of floats: positions in radians. */
#ifndef THEIRS_H
#define THEIRS_H

#include <proj.h>

#include "points.h"

/* A projection by PROJ's name, with our units and central meridian. It ends the program where PROJ has no such name. */
PJ *theirs_open(const char *name);

/* Converts in place. Each function answers how many points were converted. */
size_t theirs_forward(PJ *projection, float_pair *points);
size_t theirs_inverse(PJ *projection, float_pair *points);

#endif
