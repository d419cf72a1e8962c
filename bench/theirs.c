#include "theirs.h"

#include <stdio.h>
#include <stdlib.h>

PJ *theirs_open(const char *name) {
    char text[100];
    snprintf(text, sizeof text, "+proj=%s +R=100000000 +lon_0=%d", name, CENTRAL / 360000);
    PJ *projection = proj_create(PJ_DEFAULT_CTX, text);
    if (projection == NULL) {
        fprintf(stderr, "bench: PROJ refuses %s\n", text);
        exit(1);
    }
    return projection;
}

static size_t convert(PJ *projection, PJ_DIRECTION direction, float_pair *points) {
    size_t step = sizeof *points;
    return proj_trans_generic(projection, direction, &points[0][0], step, POINTS, &points[0][1], step, POINTS, NULL, 0, 0,
                              NULL, 0, 0);
}

size_t theirs_forward(PJ *projection, float_pair *points) {
    return convert(projection, PJ_FWD, points);
}

size_t theirs_inverse(PJ *projection, float_pair *points) {
    return convert(projection, PJ_INV, points);
}
