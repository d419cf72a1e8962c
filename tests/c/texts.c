/* Calls on texts: what is read is written as the same text, and what is written is read as the same position. */
#include <stdlib.h>
#include <string.h>

#include "guarded.h"
#include "random.h"
#include "uldaseong.h"

/* The statuses of a position that is written, of a piece for it that is not of 22 bytes, and of a text that is read. */
enum {
    WRITTEN = 1 << 0 | 1 << 4 | 1 << 5,
    TEXT_PIECE = 1 << 12,
    READ = WRITTEN | 1 << 13 | 1 << 14 | 1 << 15,
};

/* Answers the status' bit. */
static int call_read_text(uint8_t *in, uint8_t *out, uint8_t *in_before, uint8_t *out_before) {
    size_t length = some_length(ULDASEONG_TEXT);
    uint8_t *text = lend(in, length), again[ULDASEONG_TEXT];
    int32_t *pair = lend(out, 8);
    random_text(text, length);
    memcpy(in_before, in, page);
    memcpy(out_before, out, page);
    uint8_t status = uldaseong_read_text(text, length, pair);
    hold_status(status, length == ULDASEONG_TEXT ? READ : TEXT_PIECE);
    hold_rest(in, in_before, text, 0);
    hold_rest(out, out_before, pair, status == 0 ? 8 : 0);
    if (status == 0) {
        hold(uldaseong_write_text(pair[0], pair[1], again, sizeof again) == 0, "a position that was read is refused");
        hold(memcmp(again, text, sizeof again) == 0, "a text comes back as another one");
    }
    return 1 << status;
}

/* Answers the status' bit. */
static int call_write_text(uint8_t *out, uint8_t *before) {
    size_t length = some_length(ULDASEONG_TEXT);
    uint8_t *text = lend(out, length);
    int32_t longitude = random_angle(64800000), latitude = random_angle(32400000), pair[2];
    memcpy(before, out, page);
    uint8_t status = uldaseong_write_text(longitude, latitude, text, length);
    hold_status(status, length == ULDASEONG_TEXT ? WRITTEN : TEXT_PIECE);
    hold_rest(out, before, text, status == 0 ? length : 0);
    if (status == 0) {
        hold(uldaseong_read_text(text, length, pair) == 0, "a text that was written is refused");
        hold(pair[0] == longitude && pair[1] == latitude, "a position comes back as another one");
    }
    return 1 << status;
}

void call_texts(long rounds, uint8_t *in, uint8_t *out) {
    uint8_t *in_before = malloc(page), *out_before = malloc(page);
    int read = 0, written = 0;
    hold(in_before != NULL && out_before != NULL, "memory for two pages");
    for (long i = 0; i < rounds; i++) {
        read |= call_read_text(in, out, in_before, out_before);
        written |= call_write_text(out, out_before);
    }
    hold(read == (READ | TEXT_PIECE), "a status that no text had that was read");
    hold(written == (WRITTEN | TEXT_PIECE), "a status that no position had that was written");
    free(in_before);
    free(out_before);
}
