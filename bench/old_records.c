/* `old_records COUNT FOLDER` writes records as they were before kinds 3 and 4 were exchanged, for `reproject`: taken.records has
 * places of these kinds alone, by turns; mixed.records has positions and places of every kind. */
#include <stdio.h>
#include <stdlib.h>

#include "points.h"
#include "records.h"

enum { KINDS = 12 };

/* The old row of kind 3 is the one that kind 4 has now, and the other way round. */
static void put_old_place(FILE *file, uint8_t kind, const pair position) {
    pair place;
    place_of(kind == 3 ? 4 : kind == 4 ? 3 : kind, position, place);
    put_record(file, kind, 1, place);
}

int main(int count, char **words) {
    if (count != 3) {
        fprintf(stderr, "usage: old_records COUNT FOLDER\n");
        return 2;
    }
    FILE *taken = open_file(words[2], "taken.records");
    FILE *mixed = open_file(words[2], "mixed.records");
    uint64_t state = 1;
    long records = atol(words[1]);
    for (long i = 0; i < records; i++) {
        pair position;
        next_position(&state, position);
        put_old_place(taken, (uint8_t)(3 + i % 2), position);
        uint8_t kind = (uint8_t)(1 + i / 2 % KINDS);
        if (i % 2 == 0) {
            put_record(mixed, kind, 0, position);
        } else {
            put_old_place(mixed, kind, position);
        }
    }
    return (fclose(taken) | fclose(mixed)) != 0;
}
