/* `before KIND` prints four ratios, the time of another build of the library to that of this one: forward, inverse, forward_degrees,
 * inverse_degrees. The two take turns on the same points, and the best turn of each counts. */
#include <math.h>
#include <stdio.h>

#include "measure.h"
#include "ours.h"

/* The functions of ours.h over the other build. */
unsigned before_forward(const struct points *points, pair *places);
unsigned before_inverse(const struct points *points, pair *positions);
unsigned before_forward_degrees(const struct points *points, float_pair *places);
unsigned before_inverse_degrees(const struct points *points, float_pair *positions);

enum { TURNS = 300, TASKS = 4 };

static struct points points;
static pair pairs[POINTS];
static float_pair float_pairs[POINTS];

static unsigned forward(void) { return ours_forward(&points, pairs); }
static unsigned inverse(void) { return ours_inverse(&points, pairs); }
static unsigned forward_degrees(void) { return ours_forward_degrees(&points, float_pairs); }
static unsigned inverse_degrees(void) { return ours_inverse_degrees(&points, float_pairs); }
static unsigned old_forward(void) { return before_forward(&points, pairs); }
static unsigned old_inverse(void) { return before_inverse(&points, pairs); }
static unsigned old_forward_degrees(void) { return before_forward_degrees(&points, float_pairs); }
static unsigned old_inverse_degrees(void) { return before_inverse_degrees(&points, float_pairs); }

/* What is measured, in both builds, and the best time of each. */
struct task {
    unsigned (*ours)(void), (*before)(void);
    double our_best, before_best;
};

static struct task tasks[TASKS] = {
    {forward, old_forward, INFINITY, INFINITY},
    {inverse, old_inverse, INFINITY, INFINITY},
    {forward_degrees, old_forward_degrees, INFINITY, INFINITY},
    {inverse_degrees, old_inverse_degrees, INFINITY, INFINITY},
};

static double spent(unsigned (*function)(void)) {
    double start = seconds();
    unsigned refused = function();
    double end = seconds();
    expect(refused == 0, "a point was refused");
    return end - start;
}

int main(int count, char **words) {
    expect(count == 2, "usage: before KIND");
    fill(&points, kind_of(words[1]));
    /* every task in every round, so that a slow while of the machine spoils no task's best */
    for (int round = 0; round < TURNS; round++) {
        for (size_t i = 0; i < TASKS; i++) {
            tasks[i].our_best = fmin(tasks[i].our_best, spent(tasks[i].ours));
            tasks[i].before_best = fmin(tasks[i].before_best, spent(tasks[i].before));
        }
    }
    for (size_t i = 0; i < TASKS; i++) printf("%.3f ", tasks[i].before_best / tasks[i].our_best);
    printf("\n");
    return 0;
}
