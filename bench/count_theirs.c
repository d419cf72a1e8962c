/* `count_theirs KIND NAME` runs each function of theirs.h once, for a tool that counts the instructions of each. */
#include <stdio.h>

#include "theirs.h"

static struct points points;

int main(int count, char **words) {
    if (count != 3) {
        fprintf(stderr, "usage: count_theirs KIND NAME\n");
        return 2;
    }
    fill(&points, kind_of(words[1]));
    PJ *projection = theirs_open(words[2]);
    size_t converted = theirs_forward(projection, points.radians);
    converted += theirs_inverse(projection, points.float_place);
    proj_destroy(projection);
    return converted != 2 * POINTS;
}
