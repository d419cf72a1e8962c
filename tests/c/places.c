/* Calls on places: one past an edge or a pole is refused by the number of that side, and the turned one by the other side's. */
#include <string.h>

#include "guarded.h"
#include "random.h"
#include "uldaseong.h"

/* The refusals of the four sides. */
enum { NORTH = 6, SOUTH = 18, EAST = 7, WEST = 17 };

/* The statuses of a place as numbers and as floats. */
enum {
    PLACES = 1 << 0 | 1 << 1 | 1 << 3 | 1 << NORTH | 1 << SOUTH | 1 << EAST | 1 << WEST,
    FLOAT_PLACES = PLACES | 1 << 2,
};

/* Half a turn and a quarter. */
enum { HALF_TURN = 64800000, RIGHT_ANGLE = 32400000 };

/* What a status becomes where two sides are exchanged. */
static uint8_t exchanged(uint8_t status, uint8_t one, uint8_t other) {
    return status == one ? other : status == other ? one : status;
}

/* Holds that a refused place lies on the side that its number names. */
static void hold_side(uint8_t status, double x, double y) {
    hold(status != NORTH || y > 0, "a place that is not north refused as one");
    hold(status != SOUTH || y < 0, "a place that is not south refused as one");
    hold(status != EAST || x > 0, "a place that is not east refused as one");
    hold(status != WEST || x < 0, "a place that is not west refused as one");
}

/* Any place about the map, and sometimes far from it. Answers the status' bit. */
static int call_numbers(uint8_t *guard) {
    int32_t *pair = lend(guard, 8), before[2] = {5, 6}, turned[2];
    uint8_t kind = (uint8_t)random_below(KINDS + 2);
    int32_t central = random_angle(HALF_TURN), x = random_angle(350000000), y = random_angle(170000000);
    if (random_below(8) == 0)
        x = random_below(2) ? INT32_MIN : (int32_t)random_number();
    if (random_below(8) == 0)
        y = random_below(2) ? INT32_MIN : (int32_t)random_number();
    memcpy(pair, before, 8);
    uint8_t status = uldaseong_inverse(kind, central, x, y, pair);
    hold_status(status, PLACES);
    hold_side(status, x, y);
    hold(status == 0 || memcmp(pair, before, 8) == 0, "inverse refused and changed the pair");
    if (x != INT32_MIN)
        hold(uldaseong_inverse(kind, central, -x, y, turned) == exchanged(status, EAST, WEST), "a place turned east to west");
    if (y != INT32_MIN)
        hold(uldaseong_inverse(kind, central, x, -y, turned) == exchanged(status, NORTH, SOUTH), "a place turned north to south");
    return 1 << status;
}

/* A number of the map's size with some quarters, and sometimes any float. */
static double random_float(int32_t limit) {
    double x = random_angle(limit) + random_below(4) / 4.0;
    uint64_t bits = random_number();
    if (random_below(8) == 0)
        memcpy(&x, &bits, 8);
    return x;
}

/* The same for floats. */
static int call_floats(uint8_t *guard) {
    double *pair = lend(guard, 16), before[2] = {5, 6}, turned[2];
    uint8_t kind = (uint8_t)random_below(KINDS + 2);
    double central = random_float(185), x = random_float(350000000), y = random_float(170000000);
    memcpy(pair, before, 16);
    uint8_t status = uldaseong_inverse_degrees(kind, central, x, y, pair);
    hold_status(status, FLOAT_PLACES);
    hold_side(status, x, y);
    hold(status == 0 || memcmp(pair, before, 16) == 0, "inverse on floats refused and changed the pair");
    hold(uldaseong_inverse_degrees(kind, central, -x, y, turned) == exchanged(status, EAST, WEST),
         "a place of floats turned east to west");
    hold(uldaseong_inverse_degrees(kind, central, x, -y, turned) == exchanged(status, NORTH, SOUTH),
         "a place of floats turned north to south");
    return 1 << status;
}

/* Holds inverse on numbers and on floats to a status. */
static void hold_place(uint8_t kind, int32_t x, int32_t y, uint8_t status) {
    int32_t pair[2];
    double floats[2];
    hold(uldaseong_inverse(kind, 0, x, y, pair) == status, "a place at an edge");
    hold(uldaseong_inverse_degrees(kind, 0, x, y, floats) == status, "a place of floats at an edge");
}

/* The ends of a parallel, which are the places 180 degrees from the central meridian, and a unit past each. */
static void call_edges(uint8_t kind, int32_t latitude) {
    int32_t end[2];
    hold(uldaseong_forward(kind, 0, HALF_TURN, latitude, end) == 0, "the end of a parallel");
    int32_t width = end[0], y = end[1];
    hold_place(kind, width, y, 0);
    hold_place(kind, -width, y, 0);
    hold_place(kind, width + 1, y, EAST);
    hold_place(kind, -width - 1, y, WEST);
}

/* A unit past each pole, at any x. */
static void call_poles(uint8_t kind, int32_t x) {
    int32_t pole[2];
    hold(uldaseong_forward(kind, 0, 0, RIGHT_ANGLE, pole) == 0, "the pole");
    hold_place(kind, x, pole[1] + 1, NORTH);
    hold_place(kind, x, -pole[1] - 1, SOUTH);
}

void call_places(long rounds, uint8_t *out) {
    int numbers = 0, floats = 0;
    for (long i = 0; i < rounds; i++) {
        uint8_t kind = (uint8_t)(1 + random_below(KINDS));
        numbers |= call_numbers(out);
        floats |= call_floats(out);
        call_edges(kind, (int32_t)random_below(2 * RIGHT_ANGLE + 1) - RIGHT_ANGLE);
        call_poles(kind, (int32_t)random_number());
    }
    for (uint8_t kind = 1; kind <= KINDS; kind++) {
        for (int32_t degrees = -90; degrees <= 90; degrees += 45) call_edges(kind, degrees * (RIGHT_ANGLE / 90));
        call_poles(kind, INT32_MIN);
    }
    hold(numbers == PLACES, "a status that no place had");
    hold(floats == FLOAT_PLACES, "a status that no place of floats had");
}
