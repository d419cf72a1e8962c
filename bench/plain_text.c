#include "plain_text.h"

#include <stdio.h>
#include <stdlib.h>
#include <string.h>

#include "points.h"

enum { LENGTH = 22 };

/* Degrees, minutes, seconds and hundredths, and whether minus stands before them. */
struct angle {
    int minus, parts[4];
};

static struct angle angle_of(int32_t centiseconds) {
    int size = abs(centiseconds);
    return (struct angle){centiseconds < 0, {size / 360000, size / 6000 % 60, size / 100 % 60, size % 100}};
}

static int within(int32_t longitude, int32_t latitude) {
    return -HALF_TURN <= longitude && longitude <= HALF_TURN && -HALF_TURN / 2 <= latitude && latitude <= HALF_TURN / 2;
}

/* Puts an angle's hundredths of a second together, if it may stand in a text. */
static int centiseconds_of(const struct angle *angle, int32_t *centiseconds) {
    const int *parts = angle->parts;
    int32_t size = parts[0] * 360000 + parts[1] * 6000 + parts[2] * 100 + parts[3];
    *centiseconds = angle->minus ? -size : size;
    return parts[1] < 60 && parts[2] < 60 && !(angle->minus && size == 0);
}

static uint8_t position_of(const struct angle *latitude, const struct angle *longitude, int32_t position[2]) {
    int32_t at[2];
    if (!centiseconds_of(latitude, &at[1]) || !centiseconds_of(longitude, &at[0]) || !within(at[0], at[1]))
        return 1;
    memcpy(position, at, sizeof at);
    return 0;
}

uint8_t formats_write(int32_t longitude, int32_t latitude, uint8_t *text, size_t length) {
    char line[80];
    if (length != LENGTH || !within(longitude, latitude))
        return 1;
    struct angle a = angle_of(latitude), b = angle_of(longitude);
    snprintf(line, sizeof line, "%c%02d%02d%02d.%02d%c%03d%02d%02d.%02d/", a.minus ? '-' : '+', a.parts[0], a.parts[1],
             a.parts[2], a.parts[3], b.minus ? '-' : '+', b.parts[0], b.parts[1], b.parts[2], b.parts[3]);
    memcpy(text, line, LENGTH);
    return 0;
}

uint8_t formats_read(const uint8_t *text, size_t length, int32_t position[2]) {
    char line[LENGTH + 1], signs[2][2], slash;
    struct angle a, b;
    if (length != LENGTH)
        return 1;
    memcpy(line, text, LENGTH);
    line[LENGTH] = 0;
    int count = sscanf(line, "%1[+-]%2d%2d%2d.%2d%1[+-]%3d%2d%2d.%2d%c", signs[0], &a.parts[0], &a.parts[1], &a.parts[2],
                       &a.parts[3], signs[1], &b.parts[0], &b.parts[1], &b.parts[2], &b.parts[3], &slash);
    if (count != 11 || slash != '/')
        return 1;
    a.minus = signs[0][0] == '-';
    b.minus = signs[1][0] == '-';
    return position_of(&a, &b, position);
}

static uint8_t *put_digits(uint8_t *at, int count, int number) {
    for (int i = count - 1; i >= 0; i--, number /= 10) at[i] = (uint8_t)('0' + number % 10);
    return at + count;
}

static uint8_t *put_angle(uint8_t *at, int degrees, int32_t centiseconds) {
    struct angle angle = angle_of(centiseconds);
    *at++ = angle.minus ? '-' : '+';
    at = put_digits(at, degrees, angle.parts[0]);
    at = put_digits(at, 2, angle.parts[1]);
    at = put_digits(at, 2, angle.parts[2]);
    *at++ = '.';
    return put_digits(at, 2, angle.parts[3]);
}

uint8_t loops_write(int32_t longitude, int32_t latitude, uint8_t *text, size_t length) {
    if (length != LENGTH || !within(longitude, latitude))
        return 1;
    *put_angle(put_angle(text, 2, latitude), 3, longitude) = '/';
    return 0;
}

/* Takes so many digits from where the reading stands; -1 where a byte is none. */
static int digits(const uint8_t **at, int count) {
    int number = 0;
    for (; count > 0; count--) {
        uint8_t byte = *(*at)++;
        if (byte < '0' || byte > '9')
            return -1;
        number = number * 10 + byte - '0';
    }
    return number;
}

static int take_angle(const uint8_t **at, int degrees, struct angle *angle) {
    uint8_t sign = *(*at)++;
    angle->minus = sign == '-';
    int good = sign == '+' || sign == '-';
    for (int i = 0; i < 4; i++) {
        if (i == 3)
            good &= *(*at)++ == '.';
        angle->parts[i] = digits(at, i == 0 ? degrees : 2);
        if (angle->parts[i] < 0)
            return 0;
    }
    return good;
}

uint8_t loops_read(const uint8_t *text, size_t length, int32_t position[2]) {
    struct angle latitude, longitude;
    if (length != LENGTH || !take_angle(&text, 2, &latitude) || !take_angle(&text, 3, &longitude) || *text != '/')
        return 1;
    return position_of(&latitude, &longitude, position);
}
