/* Prints what `convert` prints of the records on standard input, by uldaseong_feed: a second way to the same bytes. */
#include <inttypes.h>
#include <stdio.h>

#include "uldaseong.h"

static int32_t number(const uint8_t *at) {
    return (int32_t)(at[0] | (uint32_t)at[1] << 8 | (uint32_t)at[2] << 16 | (uint32_t)at[3] << 24);
}

int main(void) {
    uint64_t counts[2] = {0, 0};
    uint8_t input[ULDASEONG_RECORD], output[ULDASEONG_RECORD];
    size_t length;
    for (uint64_t record = 1; (length = fread(input, 1, sizeof input, stdin)) != 0; record++) {
        uint8_t refusal = uldaseong_feed(counts, input, length, output, sizeof output);
        if (refusal != 0)
            printf("refused %d at %" PRIu64 "\n", refusal, record);
        else
            printf("%" PRId32 " %" PRId32 "\n", number(output + 8), number(output + 12));
    }
    printf("moved %" PRIu64 " refused %" PRIu64 "\n", counts[0], counts[1]);
    return 0;
}
