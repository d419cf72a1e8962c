/* `count_ours KIND` runs each function of ours.h once, for a tool that counts the instructions of each. */
#include <stdio.h>

#include "ours.h"

static struct points points;
static pair pairs[POINTS];
static float_pair float_pairs[POINTS];

int main(int count, char **words) {
    if (count != 2) {
        fprintf(stderr, "usage: count_ours KIND\n");
        return 2;
    }
    fill(&points, kind_of(words[1]));
    unsigned refused = ours_forward(&points, pairs);
    refused += ours_inverse(&points, pairs);
    refused += ours_forward_degrees(&points, float_pairs);
    refused += ours_inverse_degrees(&points, float_pairs);
    return refused != 0;
}
