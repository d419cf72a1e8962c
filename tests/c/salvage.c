/*
 * Calls uldaseong_salvage on torn files at random, every piece between two pages that may not be touched and the input in memory
 * that may only be read. What is answered is held to a reading by uldaseong_convert_record, place by place.
 */
#include <stdlib.h>
#include <string.h>
#include <sys/mman.h>
#include <unistd.h>

#include "guarded.h"
#include "random.h"
#include "uldaseong.h"

/* The refusals, and every status' bit. */
enum { TOO_LONG = 23, OTHER_LENGTH = 24, SALVAGED = 1 << 0 | 1 << TOO_LONG | 1 << OTHER_LENGTH };

/* What is lent, each in pages of its own, and what stood in these before the call. */
enum { INPUT, RECORDS, RUNS, COUNTS, LENT };
static uint8_t *guards[LENT], *before[LENT], *lent[LENT];

/* The documents' record. */
static const uint8_t sample[ULDASEONG_RECORD] = {0x4D, 0xD2, 1, 0, 0, 0, 0, 0, 0x80, 0x62, 0xEE, 1, 0x40, 0x31, 0xF7, 0};

/* Whether the reading takes a record at a place of the input. */
static int stands_at(size_t length, size_t at) {
    uint8_t moved[ULDASEONG_RECORD];
    return length - at >= sizeof moved && uldaseong_convert_record(lent[INPUT] + at, sizeof moved, moved, sizeof moved) == 0;
}

/* Reads the input again, and holds the pieces to it. What was to be written is in `written`, by bytes. */
static void hold_reading(size_t length, size_t written[LENT]) {
    uint64_t counts[2] = {0, 0};
    for (size_t at = 0; at < length;) {
        size_t first = at;
        while (at < length && !stands_at(length, at)) at++;
        if (at > first) {
            const uint8_t *run = lent[RUNS] + 8 * counts[1]++;
            hold(number_at(run) == first && number_at(run + 4) == at - first, "a run that was not skipped");
        }
        if (at < length) {
            const uint8_t *record = lent[RECORDS] + ULDASEONG_RECORD * counts[0]++;
            hold(memcmp(record, lent[INPUT] + at, ULDASEONG_RECORD) == 0, "a record that was not taken");
            at += ULDASEONG_RECORD;
        }
    }
    hold(memcmp(lent[COUNTS], counts, sizeof counts) == 0, "other counts");
    written[RECORDS] = ULDASEONG_RECORD * counts[0];
    written[RUNS] = 8 * counts[1];
    written[COUNTS] = sizeof counts;
}

/* Salvages the input that stands in its pages, with pieces of these lengths. Answers the status' bit. */
static int call(size_t length, size_t records, size_t runs) {
    size_t written[LENT] = {0};
    int right = records == length && runs == ULDASEONG_RUNS(length);
    lent[RECORDS] = lend(guards[RECORDS], records);
    lent[RUNS] = lend(guards[RUNS], runs);
    uint64_t *counts = lend(guards[COUNTS], 16);
    lent[COUNTS] = (uint8_t *)counts;
    /* nothing that an earlier call wrote */
    memset(lent[RECORDS], (int)random_below(256), records);
    memset(lent[RUNS], (int)random_below(256), runs);
    memset(counts, (int)random_below(256), 16);
    for (int i = RECORDS; i < LENT; i++) memcpy(before[i], guards[i], page);
    protect(guards[INPUT], PROT_READ);
    uint8_t status = uldaseong_salvage(lent[INPUT], length, lent[RECORDS], records, lent[RUNS], runs, counts);
    hold(status == (length > ULDASEONG_SALVAGE ? TOO_LONG : right ? 0 : OTHER_LENGTH), "another status");
    if (status == 0)
        hold_reading(length, written);
    protect(guards[INPUT], PROT_READ | PROT_WRITE);
    for (int i = RECORDS; i < LENT; i++) hold_rest(guards[i], before[i], lent[i], written[i]);
    return 1 << status;
}

/* Fills the input with records, good and damaged, of which some are cut. */
static void tear(size_t length) {
    lent[INPUT] = lend(guards[INPUT], length);
    for (size_t at = 0, part; at < length; at += part) {
        part = random_below(8) ? ULDASEONG_RECORD : 1 + random_below(20);
        part = part < length - at ? part : length - at;
        random_piece(lent[INPUT] + at, part);
    }
}

/* An input of some length, seldom a long one, and pieces of which one may be shorter or longer. */
static int call_torn(void) {
    size_t length = random_below(64) ? random_below(600) : random_below(2) ? random_below(70000) : 65530 + random_below(12);
    size_t rooms[2] = {length, ULDASEONG_RUNS(length)}, *room = &rooms[random_below(2)];
    if (random_below(4) == 0)
        *room = random_below(2) ? *room + 1 + random_below(8) : random_below((uint32_t)*room + 1);
    tear(length);
    return call(length, rooms[0], rooms[1]);
}

/* An input of some length, and pieces of every two lengths about the right ones. */
static int call_lengths(size_t length) {
    size_t right = ULDASEONG_RUNS(length), less = length > 0 ? length - 1 : 0;
    size_t records[] = {0, less, length, length + 1, length + 16, page};
    size_t runs[] = {0, right - 8, right - 1, right, right + 1, right + 8, page};
    int seen = 0;
    tear(length);
    for (size_t i = 0; i < sizeof records / sizeof *records; i++)
        for (size_t j = 0; j < sizeof runs / sizeof *runs; j++) seen |= call(length, records[i], runs[j]);
    return seen;
}

/* The sample whole, without one of its bytes, and whole: two records, and 15 bytes skipped at 16. */
static void call_sample(size_t lost) {
    static const uint8_t run[8] = {16, 0, 0, 0, 15, 0, 0, 0};
    uint8_t *input = lent[INPUT] = lend(guards[INPUT], 47);
    memcpy(input, sample, 16);
    memcpy(input + 16, sample, lost);
    memcpy(input + 16 + lost, sample + lost + 1, 15 - lost);
    memcpy(input + 31, sample, 16);
    hold(call(47, 47, 24) == 1 << 0, "the sample without a byte refused");
    hold(memcmp(lent[RECORDS], sample, 16) == 0 && memcmp(lent[RECORDS] + 16, sample, 16) == 0, "the sample's records");
    hold(memcmp(lent[RUNS], run, sizeof run) == 0, "the sample's run");
    hold(number_at(lent[COUNTS]) == 2 && number_at(lent[COUNTS] + 8) == 1, "the sample's counts");
}

/* Pieces that are longer than those of 16 bytes by a power of two: all of them, and one at a time. */
static void call_long(size_t more) {
    size_t long_input = more + 16, long_runs = ULDASEONG_RUNS(long_input);
    uint64_t counts[2] = {5, 6};
    uint8_t *memory = mmap(NULL, 3 * long_input, PROT_READ | PROT_WRITE, MAP_PRIVATE | MAP_ANONYMOUS | MAP_NORESERVE, -1, 0);
    uint8_t *records = memory + long_input, *runs = records + long_input;
    hold(memory != MAP_FAILED, "address space for long pieces");
    memcpy(memory, sample, 16);
    hold(uldaseong_salvage(memory, long_input, records, long_input, runs, long_runs, counts) == TOO_LONG, "a long input taken");
    hold(uldaseong_salvage(memory, long_input, records, 16, runs, 8, counts) == TOO_LONG, "a long input with short pieces taken");
    hold(uldaseong_salvage(memory, 16, records, long_input, runs, 8, counts) == OTHER_LENGTH, "a long piece for records taken");
    hold(uldaseong_salvage(memory, 16, records, 16, runs, more + 8, counts) == OTHER_LENGTH, "a long piece for runs taken");
    hold(records[0] == 0 && runs[4] == 0 && counts[0] == 5 && counts[1] == 6, "a refusal that changed what was lent");
    munmap(memory, 3 * long_input);
}

int main(int count, char **words) {
    static const size_t lengths[] = {0, 1, 15, 16, 17, 18, 33, 34, 47, 65535, 65536, 65537, 65553};
    int seen = 0;
    page = 32 * (size_t)sysconf(_SC_PAGESIZE);
    random_seed(count > 2 ? (uint64_t)atol(words[2]) : 1);
    for (int i = 0; i < LENT; i++) {
        guards[i] = guarded();
        before[i] = malloc(page);
        hold(before[i] != NULL, "memory for pages");
        for (size_t at = 0; at < page; at++) guards[i][at] = (uint8_t)random_number();
    }
    for (size_t lost = 0; lost < sizeof sample; lost++) call_sample(lost);
    for (size_t i = 0; i < sizeof lengths / sizeof *lengths; i++) seen |= call_lengths(lengths[i]);
    hold(seen == SALVAGED, "a status that no length had");
    seen = 0;
    for (long i = count > 1 ? atol(words[1]) : 1000; i > 0; i--) seen |= call_torn();
    hold(seen == SALVAGED, "a status that no torn file had");
    for (int bits = 17; bits <= 32; bits += 5) call_long((size_t)1 << bits);
    return 0;
}
