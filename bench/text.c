/* `text` prints a line for writing and a line for reading the text of a position: the nanoseconds of a call of ours, then the
 * ratios of plain C's time to it, with the C library's formats and with loops over the digits. All take turns on the same
 * positions at random, and the best turn of each counts. */
#include <math.h>
#include <stdio.h>
#include <string.h>

#include "../include/uldaseong.h"
#include "measure.h"
#include "plain_text.h"
#include "points.h"

enum { TURNS = 200, SIDES = 3 };

static pair positions[POINTS], back[POINTS];
static uint8_t texts[POINTS][ULDASEONG_TEXT], written[POINTS][ULDASEONG_TEXT];

/* What is measured: two functions, and the best time of each. */
struct side {
    uint8_t (*write)(int32_t longitude, int32_t latitude, uint8_t *text, size_t length);
    uint8_t (*read)(const uint8_t *text, size_t length, int32_t position[2]);
    double write_best, read_best;
};

static struct side sides[SIDES] = {
    {uldaseong_write_text, uldaseong_read_text, INFINITY, INFINITY},
    {formats_write, formats_read, INFINITY, INFINITY},
    {loops_write, loops_read, INFINITY, INFINITY},
};

/* All positions, or all texts; answers how many were refused. */
static unsigned write_all(const struct side *side) {
    unsigned refused = 0;
    for (size_t i = 0; i < POINTS; i++)
        refused += side->write(positions[i][0], positions[i][1], written[i], sizeof written[i]) != 0;
    return refused;
}

static unsigned read_all(const struct side *side) {
    unsigned refused = 0;
    for (size_t i = 0; i < POINTS; i++) refused += side->read(texts[i], sizeof texts[i], back[i]) != 0;
    return refused;
}

static void turn(struct side *side) {
    double start = seconds();
    unsigned refused = write_all(side);
    double middle = seconds();
    refused += read_all(side);
    double end = seconds();
    expect(refused == 0, "a position or a text was refused");
    side->write_best = fmin(side->write_best, middle - start);
    side->read_best = fmin(side->read_best, end - middle);
}

/* All sides must do the same work. */
static void check(struct side *side) {
    memset(written, 0, sizeof written);
    memset(back, 0, sizeof back);
    turn(side);
    expect(memcmp(written, texts, sizeof texts) == 0, "a text is not ours");
    expect(memcmp(back, positions, sizeof positions) == 0, "a position does not come back");
}

int main(void) {
    uint64_t state = 1;
    for (size_t i = 0; i < POINTS; i++) next_position(&state, positions[i]);
    expect(write_all(&sides[0]) == 0, "a position was refused");
    memcpy(texts, written, sizeof texts);
    for (size_t i = 0; i < SIDES; i++) check(&sides[i]);
    for (int round = 0; round < TURNS; round++) {
        for (size_t i = 0; i < SIDES; i++) turn(&sides[i]);
    }
    double write_best = sides[0].write_best, read_best = sides[0].read_best;
    printf("write %.1f %.2f %.2f\n", write_best * 1e9 / POINTS, sides[1].write_best / write_best,
           sides[2].write_best / write_best);
    printf("read %.1f %.2f %.2f\n", read_best * 1e9 / POINTS, sides[1].read_best / read_best,
           sides[2].read_best / read_best);
    return 0;
}
