#include "guarded.h"

#include <stdio.h>
#include <stdlib.h>
#include <string.h>
#include <sys/mman.h>

#include "random.h"

size_t page;

uint8_t *guarded(void) {
    uint8_t *pages = mmap(NULL, 3 * page, PROT_NONE, MAP_PRIVATE | MAP_ANONYMOUS, -1, 0);
    if (pages == MAP_FAILED || mprotect(pages + page, page, PROT_READ | PROT_WRITE) != 0) {
        perror("guarded pages");
        exit(2);
    }
    return pages + page;
}

void protect(uint8_t *guard, int how) {
    if (mprotect(guard, page, how) != 0) {
        perror("a page to read only");
        exit(2);
    }
}

void *lend(uint8_t *guard, size_t length) { return random_below(2) ? guard : guard + page - length; }

size_t some_length(size_t right) {
    if (random_below(8) != 0)
        return right;
    return random_below(16) ? random_below(LONGEST + 1) : random_below((uint32_t)page + 1);
}

void hold(int fact, const char *what) {
    if (!fact) {
        printf("FAILED %s\n", what);
        exit(1);
    }
}

void hold_status(uint8_t status, int allowed) {
    hold(status <= 24 && (allowed >> status & 1) != 0, "a status that the call does not have");
}

void hold_rest(const uint8_t *guard, const uint8_t *before, const void *piece, size_t length) {
    size_t at = (size_t)((const uint8_t *)piece - guard), end = at + length;
    hold(memcmp(guard, before, at) == 0 && memcmp(guard + end, before + end, page - end) == 0,
         "a call changed what it was not to change");
}

uint64_t number_at(const uint8_t *bytes) {
    return bytes[0] | (uint64_t)bytes[1] << 8 | (uint64_t)bytes[2] << 16 | (uint64_t)bytes[3] << 24;
}
