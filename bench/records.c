#include "records.h"

#include <stdlib.h>

struct record {
    uint8_t mark[2], kind, form;
    int32_t central, first, second;
};

FILE *open_file(const char *folder, const char *name) {
    char path[4096];
    snprintf(path, sizeof path, "%s/%s", folder, name);
    FILE *file = fopen(path, "wb");
    if (file == NULL) {
        perror(path);
        exit(1);
    }
    return file;
}

/* The machine's bytes are the record's: x86-64 has the least byte first. */
void put_record(FILE *file, uint8_t kind, uint8_t form, const pair numbers) {
    struct record record = {{0x4D, 0xD2}, kind, form, CENTRAL, numbers[0], numbers[1]};
    fwrite(&record, sizeof record, 1, file);
}
