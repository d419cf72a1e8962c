/* All points of a kind through the C interface. Each function answers how many were refused. */
#ifndef OURS_H
#define OURS_H

#include "points.h"

unsigned ours_forward(const struct points *points, pair *places);
unsigned ours_inverse(const struct points *points, pair *positions);
unsigned ours_forward_degrees(const struct points *points, float_pair *places);
unsigned ours_inverse_degrees(const struct points *points, float_pair *positions);

#endif
