/* Holds the root to its definition: r * r is at most n, and (r + 1) * (r + 1) above it. `roots SIDES COUNT SEED` tries the square of every
 * number up to SIDES, and those about every power of two, with both neighbours, and COUNT numbers at random of every length. */
#include <inttypes.h>
#include <stdio.h>
#include <stdlib.h>

#include "random.h"

uint64_t root(uint64_t n);

static void hold(uint64_t n) {
    unsigned __int128 r = root(n);
    if (r * r <= n && n < (r + 1) * (r + 1))
        return;
    printf("%" PRIu64 " has not the root %" PRIu64 "\n", n, (uint64_t)r);
    exit(1);
}

/* A square and its neighbours; below 0 comes the greatest number of 64 bits. */
static void hold_square(uint64_t side) {
    for (uint64_t n = side * side - 1, i = 0; i < 3; i++) hold(n + i);
}

int main(int count, char **words) {
    if (count != 4)
        return 2;
    uint64_t sides = strtoull(words[1], NULL, 10), numbers = strtoull(words[2], NULL, 10);
    random_seed(strtoull(words[3], NULL, 10));
    for (uint64_t side = 0; side <= sides; side++) hold_square(side);
    for (int k = 0; k <= 32; k++)
        for (uint64_t beside = 0; beside <= 2; beside++) hold_square((UINT64_C(1) << k) - 1 + beside);
    for (uint64_t i = 0; i < numbers; i++) hold(random_number() >> i % 64);
    return 0;
}
