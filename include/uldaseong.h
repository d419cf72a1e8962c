/*
 * Uldaseong: map projections in whole numbers, proved. Longitude and latitude become places on a world map and come back, for
 * twelve atlas projections. Link target/staticlib/libuldaseong.a, which tests/build makes for x86-64.
 *
 * Every function answers every input. It returns 0 where it did what was asked, and else the number of the refusal:
 *
 *    1  kind is not 1..12
 *    2  a float is NaN or infinite
 *    3  central meridian outside 180 degrees either way
 *    4  longitude outside 180 degrees either way
 *    5  latitude outside 90 degrees either way
 *    6  y greater than the pole's y: north of it
 *    7  x greater than the half-width of the row found at y: east of it
 *    8  input or output piece not of 16 bytes; of a note, not of 10
 *    9  mark is wrong
 *   10  form is neither 0 nor 1
 *   11  session is full
 *   12  text not of 22 bytes
 *   13  a sign, digit, point or slash is missing from its place in a text
 *   14  minutes or seconds of a text are 60 or more
 *   15  minus before zero in a text
 *   16  the two numbers of a note add to more than 1,000,000,000
 *   17  x less than minus the half-width of the row found at y: west of it
 *   18  y less than minus the pole's y: south of it
 *   23  input to be salvaged of more than 65,536 bytes
 *   24  a piece for what is salvaged has another length than its input asks for
 *
 * The first that applies is given, in the order 8, 11, 9, 10, 1, 2, 3, then 4 and 5 for a position, or 6, 18, 7 and 17 for a
 * place; to read a text in the order 12, 13, 14, 15, 5, 4, and to write one in the order 12, 5, 4; to restore a note in the order
 * 8, 9, 16, and to save one in the order 8, 16; to salvage in the order 23, 24. On a refusal nothing lent has changed, but that
 * feeding counts it (8 and 11 are not counted).
 *
 * What a caller owes: pointers are aligned and not null, not even for a length of 0; what is lent for writing overlaps nothing else
 * that is lent; and the floating-point unit rounds to nearest (FE_TONEAREST, as every program starts), since under another mode
 * the last bit of degrees may differ. Functions keep nothing between calls: they may be called from several threads on different
 * memory.
 */
#ifndef ULDASEONG_H
#define ULDASEONG_H

#include <stddef.h>
#include <stdint.h>

#ifdef __cplusplus
extern "C" {
#endif

/* The length of a record, of a position's text, and of a session's note. */
#define ULDASEONG_RECORD 16
#define ULDASEONG_TEXT 22
#define ULDASEONG_NOTE 10

/* The longest input that is salvaged, and the length of the list of skipped runs for an input of n bytes. */
#define ULDASEONG_SALVAGE 65536
#define ULDASEONG_RUNS(n) ((n) / 17 * 8 + 8)

/* Angles are whole hundredths of an arcsecond, 360,000 to the degree, east and north positive; places are whole hundred-
 * millionths of the sphere's radius. Both are rounded to the nearest, a half to the even neighbour. */

/* The place of a position: x, then y. Refusals: 1, 3, 4, 5. */
uint8_t uldaseong_forward(uint8_t kind, int32_t central, int32_t longitude, int32_t latitude, int32_t place[2]);

/* The position of a place: longitude, then latitude. Refusals: 1, 3, 6, 18, 7, 17. */
uint8_t uldaseong_inverse(uint8_t kind, int32_t central, int32_t x, int32_t y, int32_t position[2]);

/* The same with angles in degrees. A float stands for the whole number nearest to its exact value, times 360,000 for degrees, a half
 * going to the even neighbour; what is answered reads back as the same number. Refusals: 1, 2, 3, 4, 5. */
uint8_t uldaseong_forward_degrees(uint8_t kind, double central, double longitude, double latitude, double place[2]);

/* Refusals: 1, 2, 3, 6, 18, 7, 17. */
uint8_t uldaseong_inverse_degrees(uint8_t kind, double central, double x, double y, double position[2]);

/* Converts the record in `input` into `output`. Refusals: 8, 9, 10, then those of its kind, form and numbers. */
uint8_t uldaseong_convert_record(const uint8_t *input, size_t input_length, uint8_t *output, size_t output_length);

/* The same in a session, whose state is two counts that the caller keeps: records moved, then records refused. An opened
 * session is { 0, 0 }, and any two counts are taken. One that is moved adds one to the first, one that is refused by a number
 * other than 8 and 11 adds one to the second. From a sum of 1,000,000,000 up the session is full: 11, after 8. */
uint8_t uldaseong_feed(uint64_t counts[2], const uint8_t *input, size_t input_length, uint8_t *output, size_t output_length);

/* A session's counts as a handover note: the mark 4D D3, then moved and refused as unsigned 32-bit numbers, the least byte
 * first. */

/* Saves the counts in `note`. Every session that feeding and restoring reach from an opened one is saved. Refusals: 8, and 16 for
 * counts that no session reaches, so that every note that is saved can be restored. */
uint8_t uldaseong_save(const uint64_t counts[2], uint8_t *note, size_t note_length);

/* Puts the note's numbers in the place of the counts, whatever these are; an older note rewinds them. Refusals: 8, 9, 16. */
uint8_t uldaseong_restore(uint64_t counts[2], const uint8_t *note, size_t note_length);

/* Salvages a torn record file. From the front: where the next 16 bytes are a record that uldaseong_convert_record converts, they
 * are taken, and else one byte is skipped. The taken records stand in `records` as they were, one behind the other from its
 * beginning, and each run of skipped bytes in `runs` by two unsigned 32-bit numbers, the least byte first: its first place, counted
 * from 0, and its length. `counts` has the records taken, then the runs skipped; the bytes of both pieces behind these stay. What
 * is taken may begin inside a record whose numbers look like a mark. `records` is as long as the input, and `runs` has
 * ULDASEONG_RUNS(input_length) bytes. Refusals: 23, 24. */
uint8_t uldaseong_salvage(const uint8_t *input, size_t input_length, uint8_t *records, size_t records_length, uint8_t *runs,
                          size_t runs_length, uint64_t counts[2]);

/* A position as text by ISO 6709: degrees, minutes and seconds with two decimals, latitude first. +450000.00+0900000.00/ is 45
 * degrees north and 90 east. It has no null byte at its end. */

/* The position of a text: longitude, then latitude. Refusals: 12, 13, 14, 15, 5, 4. */
uint8_t uldaseong_read_text(const uint8_t *text, size_t text_length, int32_t position[2]);

/* The text of a position, which is the only one that is read as it. Zero has a plus; 180 degrees have a plus to the east and a
 * minus to the west. Refusals: 12, 5, 4. */
uint8_t uldaseong_write_text(int32_t longitude, int32_t latitude, uint8_t *text, size_t text_length);

#ifdef __cplusplus
}
#endif

#endif
