/* Calls on notes: counts that are saved are restored as they were, and a note that is restored is saved as the same. */
#include <stdlib.h>
#include <string.h>
#include <sys/mman.h>

#include "guarded.h"
#include "random.h"
#include "uldaseong.h"

/* The statuses of counts that are saved, and of a note that is restored. */
enum {
    SAVED = 1 << 0 | 1 << 16,
    RESTORED = SAVED | 1 << 9,
};

/* Holds that counts, or those of a note, are refused exactly if they add to more than a note may have. */
static void hold_sum(uint8_t status, uint64_t moved, uint64_t refused) {
    int more = moved > 1000000000 || refused > 1000000000 || moved + refused > 1000000000;
    hold((status == 16) == more, "a sum that is refused, or that is not");
}

/* The counts stand in a page that may only be read. Answers the status' bit. */
static int call_save(uint8_t *in, uint8_t *out, uint8_t *before) {
    size_t length = some_length(ULDASEONG_NOTE);
    uint64_t *counts = lend(in, 16), again[2] = {random_number(), random_number()};
    uint8_t *note = lend(out, length);
    random_counts(counts);
    memcpy(before, out, page);
    protect(in, PROT_READ);
    uint8_t status = uldaseong_save(counts, note, length);
    protect(in, PROT_READ | PROT_WRITE);
    hold_status(status, length == ULDASEONG_NOTE ? SAVED : PIECES);
    hold_rest(out, before, note, status == 0 ? length : 0);
    if (length == ULDASEONG_NOTE)
        hold_sum(status, counts[0], counts[1]);
    if (status == 0) {
        hold(uldaseong_restore(again, note, length) == 0, "a note that was saved is refused");
        hold(memcmp(again, counts, sizeof again) == 0, "counts come back as others");
    }
    return 1 << status;
}

/* The note stands in a page that may only be read. Answers the status' bit. */
static int call_restore(uint8_t *in, uint8_t *out, uint8_t *before) {
    size_t length = some_length(ULDASEONG_NOTE);
    uint64_t *counts = lend(out, 16);
    uint8_t *note = lend(in, length), again[ULDASEONG_NOTE];
    random_note(note, length);
    random_counts(counts);
    memcpy(before, out, page);
    protect(in, PROT_READ);
    uint8_t status = uldaseong_restore(counts, note, length);
    protect(in, PROT_READ | PROT_WRITE);
    hold_status(status, length == ULDASEONG_NOTE ? RESTORED : PIECES);
    hold_rest(out, before, counts, status == 0 ? 16 : 0);
    if (length == ULDASEONG_NOTE && note[0] == 0x4D && note[1] == 0xD3)
        hold_sum(status, number_at(note + 2), number_at(note + 6));
    if (status == 0) {
        hold(counts[0] == number_at(note + 2) && counts[1] == number_at(note + 6), "counts that are not the note's");
        hold(uldaseong_save(counts, again, sizeof again) == 0, "counts that were restored are refused");
        hold(memcmp(again, note, sizeof again) == 0, "a note comes back as another one");
    }
    return 1 << status;
}

/* A piece that is longer than 10 bytes by a power of two, a good note in front. */
static void call_long(size_t more) {
    size_t length = more + ULDASEONG_NOTE;
    uint8_t note[ULDASEONG_NOTE] = {0x4D, 0xD3, 1};
    uint64_t counts[2] = {5, 6};
    uint8_t *piece = mmap(NULL, length, PROT_READ | PROT_WRITE, MAP_PRIVATE | MAP_ANONYMOUS | MAP_NORESERVE, -1, 0);
    hold(piece != MAP_FAILED, "address space for a long piece");
    hold(uldaseong_save(counts, piece, length) == 8, "a note saved in a long piece");
    hold(piece[0] == 0 && piece[1] == 0, "a long piece that is refused and changed");
    memcpy(piece, note, sizeof note);
    hold(uldaseong_restore(counts, piece, length) == 8, "a long piece that is restored");
    hold(counts[0] == 5 && counts[1] == 6, "counts that changed by a long piece");
    munmap(piece, length);
}

void call_notes(long rounds, uint8_t *in, uint8_t *out) {
    uint8_t *before = malloc(page);
    int saved = 0, restored = 0;
    hold(before != NULL, "memory for a page");
    for (long i = 0; i < rounds; i++) {
        saved |= call_save(in, out, before);
        restored |= call_restore(in, out, before);
    }
    hold(saved == (SAVED | PIECES), "a status that no counts had that were saved");
    hold(restored == (RESTORED | PIECES), "a status that no note had that was restored");
    free(before);
    for (int bits = 8; bits <= 32; bits += 8)
        call_long((size_t)1 << bits);
}
