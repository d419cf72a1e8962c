#include "ours.h"

#include "../include/uldaseong.h"

static const double central_degrees = CENTRAL / 360000.0;

unsigned ours_forward(const struct points *points, pair *places) {
    unsigned refused = 0;
    for (size_t i = 0; i < POINTS; i++) {
        const int32_t *at = points->position[i];
        refused += uldaseong_forward(points->kind, CENTRAL, at[0], at[1], places[i]) != 0;
    }
    return refused;
}

unsigned ours_inverse(const struct points *points, pair *positions) {
    unsigned refused = 0;
    for (size_t i = 0; i < POINTS; i++) {
        const int32_t *at = points->place[i];
        refused += uldaseong_inverse(points->kind, CENTRAL, at[0], at[1], positions[i]) != 0;
    }
    return refused;
}

unsigned ours_forward_degrees(const struct points *points, float_pair *places) {
    unsigned refused = 0;
    for (size_t i = 0; i < POINTS; i++) {
        const double *at = points->degrees[i];
        refused += uldaseong_forward_degrees(points->kind, central_degrees, at[0], at[1], places[i]) != 0;
    }
    return refused;
}

unsigned ours_inverse_degrees(const struct points *points, float_pair *positions) {
    unsigned refused = 0;
    for (size_t i = 0; i < POINTS; i++) {
        const double *at = points->float_place[i];
        refused += uldaseong_inverse_degrees(points->kind, central_degrees, at[0], at[1], positions[i]) != 0;
    }
    return refused;
}
