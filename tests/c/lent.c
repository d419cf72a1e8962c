/*
 * Calls every function of the C interface on seeded random input, with each lent piece of memory between two pages that
 * may be neither read nor written, so that a byte too far ends the run. It holds the answers to what must be so of every
 * call: a refusal leaves what was lent as it was, a moved record is accepted again, a session's counts add up, a place is
 * refused by the number of the side that it is past, and a text and its position, a note and its counts come back as they were.
 */
#include <stdlib.h>
#include <string.h>
#include <unistd.h>

#include "guarded.h"
#include "random.h"
#include "uldaseong.h"

/* The statuses that a call may have, a bit for each: of positions as numbers and as floats, of a record, and of one that is fed to a
 * session. */
enum {
    NUMBERS = 1 << 0 | 1 << 1 | 1 << 3 | 1 << 4 | 1 << 5,
    FLOATS = NUMBERS | 1 << 2,
    RECORD = NUMBERS | 1 << 6 | 1 << 7 | 1 << 9 | 1 << 10 | 1 << 17 | 1 << 18,
    FED = RECORD | 1 << 11,
};

/* Refusal 1 comes before all others of a call on numbers or floats. */
static void hold_kind(uint8_t status, uint8_t kind) {
    hold((status == 1) == (kind < 1 || kind > KINDS), "a kind of the table refused by 1, or another one not");
}

static void call_numbers(uint8_t *guard) {
    int32_t *pair = lend(guard, 8);
    int32_t before[2] = {(int32_t)random_number(), (int32_t)random_number()};
    uint8_t kind = (uint8_t)random_below(KINDS + 2);
    int32_t central = (int32_t)random_below(140000000) - 70000000;
    memcpy(pair, before, 8);
    uint8_t status = uldaseong_forward(kind, central, (int32_t)random_below(140000000) - 70000000,
                                       (int32_t)random_below(70000000) - 35000000, pair);
    hold_status(status, NUMBERS);
    hold_kind(status, kind);
    if (status != 0) {
        hold(memcmp(pair, before, 8) == 0, "forward refused and changed the pair");
        return;
    }
    hold(uldaseong_inverse(kind, central, pair[0], pair[1], pair) == 0, "inverse refused a place of forward");
}

static void call_floats(uint8_t *guard) {
    double *pair = lend(guard, 16);
    double before[2] = {random_below(1000), random_below(1000)};
    double given[3];
    uint8_t kind = (uint8_t)random_below(KINDS + 2);
    for (int i = 0; i < 3; i++) {
        uint64_t bits = random_number();
        if (random_below(4) == 0)
            memcpy(&given[i], &bits, 8);
        else
            given[i] = (double)bits / 0x1p64 * 370 - 185;
    }
    memcpy(pair, before, 16);
    uint8_t status = uldaseong_forward_degrees(kind, given[0], given[1], given[2] / 2, pair);
    hold_status(status, FLOATS);
    hold_kind(status, kind);
    if (status != 0) {
        hold(memcmp(pair, before, 16) == 0, "forward on floats refused and changed the pair");
        return;
    }
    hold(uldaseong_inverse_degrees(kind, given[0], pair[0], pair[1], pair) == 0,
         "inverse refused a place of forward on floats");
}

static void call_convert(uint8_t *in, uint8_t *out) {
    size_t input_length = random_below(8) ? ULDASEONG_RECORD : random_below(LONGEST + 1);
    size_t output_length = random_below(8) ? ULDASEONG_RECORD : random_below(LONGEST + 1);
    uint8_t *input = lend(in, input_length), *output = lend(out, output_length), before[LONGEST];
    random_piece(input, input_length);
    random_piece(output, output_length);
    memcpy(before, output, output_length);
    uint8_t status = uldaseong_convert_record(input, input_length, output, output_length);
    int sizes = input_length == ULDASEONG_RECORD && output_length == ULDASEONG_RECORD;
    hold_status(status, sizes ? RECORD : PIECES);
    if (status != 0) {
        hold(memcmp(output, before, output_length) == 0, "a record was refused and the output changed");
        return;
    }
    hold(memcmp(output, input, 3) == 0 && output[3] == (input[3] ^ 1), "mark, kind or form of a moved record");
    hold(memcmp(output + 4, input + 4, 4) == 0, "central meridian of a moved record");
    hold(uldaseong_convert_record(output, 16, input, 16) == 0, "a moved record was refused");
}

static void call_feed(uint64_t *counts, uint8_t *in, uint8_t *out) {
    size_t length = random_below(8) ? ULDASEONG_RECORD : random_below(LONGEST + 1);
    uint8_t *input = lend(in, length), *output = lend(out, ULDASEONG_RECORD), before[ULDASEONG_RECORD];
    uint64_t moved = counts[0], refused = counts[1];
    random_piece(input, length);
    memset(output, 0xA5, sizeof before);
    memset(before, 0xA5, sizeof before);
    uint8_t status = uldaseong_feed(counts, input, length, output, ULDASEONG_RECORD);
    hold_status(status, length == ULDASEONG_RECORD ? FED : PIECES);
    hold(counts[0] == moved + (status == 0), "the count of moved records");
    hold(counts[1] == refused + (status != 0 && status != 8 && status != 11), "the count of refused records");
    hold(status == 0 || memcmp(output, before, sizeof before) == 0, "a fed record was refused and the output changed");
    hold((status == 11) == (length == ULDASEONG_RECORD && moved + refused >= 1000000000), "a full session");
}

int main(int count, char **words) {
    long rounds = count > 1 ? atol(words[1]) : 1000000;
    page = (size_t)sysconf(_SC_PAGESIZE);
    uint8_t *in = guarded(), *out = guarded();
    uint64_t *counts = (uint64_t *)(void *)(guarded() + page - 16);
    random_seed(count > 2 ? (uint64_t)atol(words[2]) : 1);
    /* a session that fills up half way */
    counts[0] = 1000000000 - (uint64_t)rounds / 4;
    for (long i = 0; i < rounds; i++) {
        call_numbers(out);
        call_floats(out);
        call_convert(in, out);
        call_feed(counts, in, out);
    }
    hold(rounds > 0 && counts[0] + counts[1] == 1000000000, "a session that is full in the end");
    call_places(rounds, out);
    call_texts(rounds, in, out);
    /* fewer, since a page that is to be read only costs more than a call */
    call_notes((rounds + 3) / 4, in, out);
    return 0;
}
