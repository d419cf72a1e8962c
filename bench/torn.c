/* `torn` prints a line for each of four files of 65,536 bytes: the microseconds of a salvage of ours, and the ratio of plain C's time to
 * it, which asks `uldaseong_convert_record` at every place where a mark stands. Both take turns on the same file, and the best turn of
 * each counts. */
#include <math.h>
#include <stdio.h>
#include <string.h>

#include "../include/uldaseong.h"
#include "measure.h"
#include "points.h"

enum { TURNS = 200, FILE_SIZE = ULDASEONG_SALVAGE, LIST_SIZE = ULDASEONG_RUNS(FILE_SIZE) };

static uint8_t file[FILE_SIZE], records[2][FILE_SIZE], runs[2][LIST_SIZE];

static void put(uint8_t *at, uint32_t n) {
    for (int i = 0; i < 4; i++) at[i] = (uint8_t)(n >> (8 * i));
}

/* The same in plain C: where a mark stands, the library is asked. */
static void plain(uint64_t counts[2]) {
    uint8_t moved[ULDASEONG_RECORD];
    size_t since = 0, at = 0;
    counts[0] = counts[1] = 0;
    while (at <= FILE_SIZE) {
        int taken = at + ULDASEONG_RECORD <= FILE_SIZE && file[at] == 0x4D && file[at + 1] == 0xD2 &&
                    uldaseong_convert_record(file + at, ULDASEONG_RECORD, moved, sizeof moved) == 0;
        if ((taken || at == FILE_SIZE) && since < at) {
            put(runs[1] + 8 * counts[1], (uint32_t)since);
            put(runs[1] + 8 * counts[1] + 4, (uint32_t)(at - since));
            counts[1]++;
        }
        if (taken) {
            memcpy(records[1] + ULDASEONG_RECORD * counts[0]++, file + at, ULDASEONG_RECORD);
            at += ULDASEONG_RECORD;
            since = at;
        } else {
            at++;
        }
    }
}

static void measure(const char *name) {
    double ours = INFINITY, theirs = INFINITY;
    uint64_t counts[2], again[2];
    memset(records, 0, sizeof records);
    memset(runs, 0, sizeof runs);
    for (int turn = 0; turn < TURNS; turn++) {
        double start = seconds();
        expect(uldaseong_salvage(file, FILE_SIZE, records[0], FILE_SIZE, runs[0], LIST_SIZE, counts) == 0, "a file was refused");
        double middle = seconds();
        plain(again);
        theirs = fmin(theirs, seconds() - middle);
        ours = fmin(ours, middle - start);
    }
    expect(memcmp(counts, again, sizeof counts) == 0 && memcmp(records[0], records[1], FILE_SIZE) == 0 &&
               memcmp(runs[0], runs[1], LIST_SIZE) == 0,
           "plain C takes other records");
    printf("%s %.0f %.2f\n", name, ours * 1e6, theirs / ours);
}

/* Positions of a kind, at random. */
static void fill_with(uint8_t kind, uint64_t *state) {
    for (size_t at = 0; at < FILE_SIZE; at += ULDASEONG_RECORD) {
        pair position;
        next_position(state, position);
        memcpy(file + at, (uint8_t[]){0x4D, 0xD2, kind, 0, 0, 0, 0, 0}, 8);
        put(file + at + 8, (uint32_t)position[0]);
        put(file + at + 12, (uint32_t)position[1]);
    }
}

int main(void) {
    uint64_t state = 1;
    fill_with(1, &state);
    measure("kind-1");
    fill_with(3, &state);
    measure("kind-3");
    for (size_t at = 0; at < FILE_SIZE; at += 37) file[at] ^= 0x55;
    measure("damaged");
    for (size_t at = 0; at < FILE_SIZE; at++) {
        pair numbers;
        next_position(&state, numbers);
        file[at] = (uint8_t)numbers[0];
    }
    measure("noise");
    return 0;
}
