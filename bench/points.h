/* Points for the benchmarks: positions at random, the same in every run, and their places. */
#ifndef POINTS_H
#define POINTS_H

#include <stddef.h>
#include <stdint.h>

/* The points that a kind is measured on, and their central meridian: 10 degrees, so that some differences are brought back. */
enum { POINTS = 20000, CENTRAL = 3600000 };

/* 180 degrees, in hundredths of an arcsecond and in radians. */
#define HALF_TURN 64800000
#define PI 3.14159265358979323846

/* Longitude and latitude, or x and y. */
typedef int32_t pair[2];
typedef double float_pair[2];

/* A kind and what it is measured on: positions and places in whole numbers, degrees and radians of the positions, and the
 * places as floats. */
struct points {
    uint8_t kind;
    pair position[POINTS];
    pair place[POINTS];
    float_pair degrees[POINTS];
    float_pair radians[POINTS];
    float_pair float_place[POINTS];
};

/* The next position at random; any state may be the first. */
void next_position(uint64_t *state, pair position);

/* The place of a position. It ends the program where the position is refused. */
void place_of(uint8_t kind, const pair position, pair place);

/* A kind by its number in text. It ends the program where it is none. */
uint8_t kind_of(const char *text);

/* All points of a kind. */
void fill(struct points *points, uint8_t kind);

#endif
