/* `root` prints what a root takes: a line for numbers one after the other, and a line for numbers of which each waits for the root
 * before it; on each the nanoseconds of ours, and the ratio of the time of the processor's root of a float to it. Both take turns on
 * the same numbers of 64 bits at random, and the best turn of each counts. */
#include <math.h>
#include <stdint.h>
#include <stdio.h>

#include "measure.h"

enum { TURNS = 400, NUMBERS = 20000 };

uint64_t root(uint64_t n);

/* The float's root, put right by one where it is off. */
static uint64_t float_root(uint64_t n) {
    uint64_t r = (uint64_t)sqrt((double)n);
    r = r < UINT32_MAX ? r : UINT32_MAX;
    if (n < r * r)
        return r - 1;
    return r < UINT32_MAX && (r + 1) * (r + 1) <= n ? r + 1 : r;
}

/* What is measured, and its best times. */
struct side {
    uint64_t (*root)(uint64_t n);
    double apart, waiting;
};

static struct side ours = {root, INFINITY, INFINITY}, theirs = {float_root, INFINITY, INFINITY};
static uint64_t numbers[NUMBERS];

/* Answers a sum of the roots, so that none is left out. */
static uint64_t turn(struct side *side) {
    uint64_t sum = 0, last = 0;
    double start = seconds();
    for (int i = 0; i < NUMBERS; i++) sum += side->root(numbers[i]);
    double middle = seconds();
    for (int i = 0; i < NUMBERS; i++) last = side->root(numbers[i] ^ (last & 1));
    double end = seconds();
    side->apart = fmin(side->apart, middle - start);
    side->waiting = fmin(side->waiting, end - middle);
    return sum + last;
}

int main(void) {
    uint64_t state = 1;
    for (int i = 0; i < NUMBERS; i++) numbers[i] = state = state * 6364136223846793005u + 1442695040888963407u;
    for (int round = 0; round < TURNS; round++) expect(turn(&ours) == turn(&theirs), "the roots differ");
    printf("apart %.1f %.2f\n", ours.apart * 1e9 / NUMBERS, theirs.apart / ours.apart);
    printf("waiting %.1f %.2f\n", ours.waiting * 1e9 / NUMBERS, theirs.waiting / ours.waiting);
    return 0;
}
