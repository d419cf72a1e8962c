/* Writes COUNT random pieces of 16 bytes and a tail: `pieces COUNT TAIL SEED`. */
#include <stdio.h>
#include <stdlib.h>

#include "random.h"
#include "uldaseong.h"

int main(int count, char **words) {
    uint8_t piece[ULDASEONG_RECORD];
    if (count != 4)
        return 2;
    random_seed((uint64_t)atol(words[3]));
    for (long i = atol(words[1]); i > 0; i--) {
        random_piece(piece, sizeof piece);
        fwrite(piece, 1, sizeof piece, stdout);
    }
    random_piece(piece, sizeof piece);
    fwrite(piece, 1, (size_t)atol(words[2]), stdout);
    return 0;
}
