/* A seeded generator of numbers, and of records, texts and notes: good, damaged, and bytes at random. */
#ifndef RANDOM_H
#define RANDOM_H

#include <stddef.h>
#include <stdint.h>

/* Kinds are numbered from 1 to this one. */
enum { KINDS = 12 };

/* The next number of the generator (splitmix64). */
uint64_t random_number(void);

void random_seed(uint64_t seed);

/* A number from 0 to below - 1. */
uint32_t random_below(uint32_t below);

/* An angle that is at most `limit` from 0, or a little more, often next to an end of that. */
int32_t random_angle(int32_t limit);

/* Fills a piece: mostly a record with numbers near the map, often with a byte changed, and else bytes at random. */
void random_piece(uint8_t *piece, size_t length);

/* Fills a piece likewise with the text of a position near the map, zeros and too many minutes or seconds among them. */
void random_text(uint8_t *piece, size_t length);

/* Two counts: mostly such as a note may have, often about the greatest sum, and else any. */
void random_counts(uint64_t counts[2]);

/* Fills a piece likewise with the note of such counts. */
void random_note(uint8_t *piece, size_t length);

#endif
