#include "points.h"

#include <stdio.h>
#include <stdlib.h>

#include "../include/uldaseong.h"

/* A number from -limit to limit, by Knuth's 64-bit linear congruence. */
static int32_t draw(uint64_t *state, int32_t limit) {
    *state = *state * 6364136223846793005u + 1442695040888963407u;
    return (int32_t)((*state >> 33) % (2 * (uint64_t)limit + 1)) - limit;
}

void next_position(uint64_t *state, pair position) {
    position[0] = draw(state, HALF_TURN);
    position[1] = draw(state, HALF_TURN / 2);
}

void place_of(uint8_t kind, const pair position, pair place) {
    uint8_t refusal = uldaseong_forward(kind, CENTRAL, position[0], position[1], place);
    if (refusal != 0) {
        fprintf(stderr, "bench: a position was refused by %d\n", refusal);
        exit(1);
    }
}

uint8_t kind_of(const char *text) {
    int kind = atoi(text);
    if (kind < 1 || kind > 12) {
        fprintf(stderr, "bench: %s is no kind\n", text);
        exit(2);
    }
    return (uint8_t)kind;
}

void fill(struct points *points, uint8_t kind) {
    uint64_t state = 1;
    points->kind = kind;
    for (size_t i = 0; i < POINTS; i++) {
        next_position(&state, points->position[i]);
        place_of(kind, points->position[i], points->place[i]);
        for (size_t j = 0; j < 2; j++) {
            points->degrees[i][j] = points->position[i][j] / 360000.0;
            points->radians[i][j] = points->position[i][j] * (PI / HALF_TURN);
            points->float_place[i][j] = points->place[i][j];
        }
    }
}
