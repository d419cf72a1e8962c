/* `library KIND NAME BOUND` prints four ratios, PROJ's time to ours, for the kind that PROJ calls NAME: forward, inverse,
 * forward_degrees, inverse_degrees. The two sides take turns on the same points, and the best turn of each counts. Their
 * places may be BOUND map units apart. */
#include <math.h>
#include <stdio.h>
#include <stdlib.h>
#include <string.h>

#include "measure.h"
#include "ours.h"
#include "theirs.h"

enum { TURNS = 300, TASKS = 4 };

static struct points points;
static pair pairs[POINTS];
static float_pair float_pairs[POINTS];
static float_pair proj_pairs[POINTS];

static unsigned numbers_forward(void) { return ours_forward(&points, pairs); }
static unsigned numbers_inverse(void) { return ours_inverse(&points, pairs); }
static unsigned degrees_forward(void) { return ours_forward_degrees(&points, float_pairs); }
static unsigned degrees_inverse(void) { return ours_inverse_degrees(&points, float_pairs); }

/* What is measured: our function, PROJ's, what PROJ's is handed, and the best time of each. */
struct task {
    unsigned (*ours)(void);
    size_t (*theirs)(PJ *, float_pair *);
    float_pair *input;
    double our_best, their_best;
};

static struct task tasks[TASKS] = {
    {numbers_forward, theirs_forward, points.radians, INFINITY, INFINITY},
    {numbers_inverse, theirs_inverse, points.float_place, INFINITY, INFINITY},
    {degrees_forward, theirs_forward, points.radians, INFINITY, INFINITY},
    {degrees_inverse, theirs_inverse, points.float_place, INFINITY, INFINITY},
};

/* A turn of each side. */
static void turn(struct task *task, PJ *projection) {
    memcpy(proj_pairs, task->input, sizeof proj_pairs);
    double start = seconds();
    unsigned refused = task->ours();
    double middle = seconds();
    size_t converted = task->theirs(projection, proj_pairs);
    double end = seconds();
    expect(refused == 0, "a point was refused");
    expect(converted == POINTS, "PROJ did not convert every point");
    task->our_best = fmin(task->our_best, middle - start);
    task->their_best = fmin(task->their_best, end - middle);
}

/* Both sides must do the same work: after a turn of forward_degrees every place is PROJ's within the bound. */
static void check_places(double bound) {
    for (size_t i = 0; i < POINTS; i++) {
        for (size_t j = 0; j < 2; j++) {
            expect(fabs(float_pairs[i][j] - proj_pairs[i][j]) <= bound, "a place is not PROJ's");
        }
    }
}

int main(int count, char **words) {
    expect(count == 4, "usage: library KIND NAME BOUND");
    fill(&points, kind_of(words[1]));
    PJ *projection = theirs_open(words[2]);
    turn(&tasks[2], projection);
    check_places(atof(words[3]));
    /* every task in every round, so that a slow while of the machine spoils no task's best */
    for (int round = 0; round < TURNS; round++) {
        for (size_t i = 0; i < TASKS; i++) turn(&tasks[i], projection);
    }
    for (size_t i = 0; i < TASKS; i++) printf("%.2f ", tasks[i].their_best / tasks[i].our_best);
    printf("\n");
    proj_destroy(projection);
    return 0;
}
