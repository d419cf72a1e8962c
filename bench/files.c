/* `files KIND COUNT FOLDER` writes the same points for both programs: positions.records and places.records for `convert`,
 * positions.doubles (in radians) and places.doubles for `proj`. */
#include <stdio.h>
#include <stdlib.h>

#include "points.h"
#include "records.h"

static void put_doubles(FILE *file, const pair numbers, double factor) {
    float_pair doubles = {numbers[0] * factor, numbers[1] * factor};
    fwrite(doubles, sizeof doubles, 1, file);
}

int main(int count, char **words) {
    if (count != 4) {
        fprintf(stderr, "usage: files KIND COUNT FOLDER\n");
        return 2;
    }
    uint8_t kind = kind_of(words[1]);
    FILE *position_records = open_file(words[3], "positions.records");
    FILE *place_records = open_file(words[3], "places.records");
    FILE *position_doubles = open_file(words[3], "positions.doubles");
    FILE *place_doubles = open_file(words[3], "places.doubles");
    uint64_t state = 1;
    for (long left = atol(words[2]); left > 0; left--) {
        pair position, place;
        next_position(&state, position);
        place_of(kind, position, place);
        put_record(position_records, kind, 0, position);
        put_record(place_records, kind, 1, place);
        put_doubles(position_doubles, position, PI / HALF_TURN);
        put_doubles(place_doubles, place, 1);
    }
    int failed = fclose(position_records) | fclose(place_records) | fclose(position_doubles) | fclose(place_doubles);
    return failed != 0;
}
