/* Files of records, for the programs that read them. */
#ifndef RECORDS_H
#define RECORDS_H

#include <stdio.h>

#include "points.h"

/* A new file in a folder. It ends the program where there can be none. */
FILE *open_file(const char *folder, const char *name);

/* Writes a record by its form, 0 for a position and 1 for a place. */
void put_record(FILE *file, uint8_t kind, uint8_t form, const pair numbers);

#endif
