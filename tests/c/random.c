#include "random.h"

#include <string.h>

#include "uldaseong.h"

static uint64_t state;

void random_seed(uint64_t seed) { state = seed; }

uint64_t random_number(void) {
    uint64_t z = (state += 0x9E3779B97F4A7C15u);
    z = (z ^ (z >> 30)) * 0xBF58476D1CE4E5B9u;
    z = (z ^ (z >> 27)) * 0x94D049BB133111EBu;
    return z ^ (z >> 31);
}

uint32_t random_below(uint32_t below) { return (uint32_t)(random_number() % below); }

static void put(uint8_t *at, int64_t number) {
    uint32_t bits = (uint32_t)number;
    for (int i = 0; i < 4; i++) at[i] = (uint8_t)(bits >> (8 * i));
}

/* A number that is at most `most` from 0, or a little more. */
static int64_t near_limit(int64_t most) { return (int64_t)(random_number() % (uint64_t)(2 * most + 201)) - most - 100; }

int32_t random_angle(int32_t limit) {
    int32_t end = (int32_t)random_below(3) - 1, beside = (int32_t)random_below(3) - 1;
    return random_below(8) ? (int32_t)near_limit(limit) : end * limit + beside;
}

static void random_record(uint8_t record[ULDASEONG_RECORD]) {
    int place = (int)random_below(2);
    record[0] = 0x4D;
    record[1] = 0xD2;
    record[2] = (uint8_t)(1 + random_below(KINDS));
    record[3] = (uint8_t)place;
    put(record + 4, random_below(2) ? 0 : near_limit(64800000));
    put(record + 8, near_limit(place ? 160000000 : 64800000));
    put(record + 12, near_limit(place ? 160000000 : 32400000));
}

/* Fills a piece with bytes at random and mostly lays the good ones over them, often with a bit changed. */
static void lay(uint8_t *piece, size_t length, const uint8_t *good, size_t good_length) {
    for (size_t i = 0; i < length; i++) piece[i] = (uint8_t)random_number();
    if (length == 0 || random_below(8) == 0)
        return;
    memcpy(piece, good, length < good_length ? length : good_length);
    if (random_below(3) == 0)
        piece[random_below((uint32_t)length)] ^= (uint8_t)(1u << random_below(8));
}

void random_piece(uint8_t *piece, size_t length) {
    uint8_t record[ULDASEONG_RECORD];
    random_record(record);
    lay(piece, length, record, sizeof record);
}

static uint8_t *put_digits(uint8_t *at, int count, uint32_t number) {
    for (int i = count - 1; i >= 0; i--, number /= 10) at[i] = (uint8_t)('0' + number % 10);
    return at + count;
}

/* A latitude or a longitude of a text, with so many digits of degrees: zero, about a limit, or of any parts. */
static uint8_t *put_angle(uint8_t *at, int digits, uint32_t most) {
    uint32_t parts[4] = {random_below(most + 2), random_below(61), random_below(61), random_below(100)};
    uint32_t sort = random_below(8);
    if (sort < 2) {
        memset(parts, 0, sizeof parts);
        parts[0] = sort * most;
        parts[3] = random_below(2);
    }
    *at++ = random_below(2) ? '+' : '-';
    at = put_digits(at, digits, parts[0]);
    at = put_digits(at, 2, parts[1]);
    at = put_digits(at, 2, parts[2]);
    *at++ = '.';
    return put_digits(at, 2, parts[3]);
}

void random_text(uint8_t *piece, size_t length) {
    uint8_t text[ULDASEONG_TEXT];
    *put_angle(put_angle(text, 2, 90), 3, 180) = '/';
    lay(piece, length, text, sizeof text);
}

void random_counts(uint64_t counts[2]) {
    uint64_t sum = random_below(2) ? random_below(1000000001) : 999999998 + random_below(5);
    counts[0] = random_number() % (sum + 1);
    counts[1] = sum - counts[0];
    int one = (int)random_below(2);
    if (random_below(8) == 0) {
        counts[one] = 0;
        counts[1 - one] = sum;
    }
    if (random_below(8) == 0)
        counts[one] = random_number() >> random_below(64);
    /* often a sum past 64 bits */
    if (random_below(8) == 0)
        counts[one] -= counts[1 - one] + random_below(2);
}

void random_note(uint8_t *piece, size_t length) {
    uint8_t note[ULDASEONG_NOTE] = {0x4D, 0xD3};
    uint64_t counts[2];
    random_counts(counts);
    put(note + 2, (int64_t)counts[0]);
    put(note + 6, (int64_t)counts[1]);
    lay(piece, length, note, sizeof note);
}
