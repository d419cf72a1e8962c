#include <stdio.h>
#include "uldaseong.h"

int main(void) {
    /* Plate Carrée, 90 degrees east and 45 north in hundredths of an arcsecond */
    int32_t place[2];
    uint8_t refusal = uldaseong_forward(1, 0, 32400000, 16200000, place);
    if (refusal != 0) {
        printf("refused %d\n", refusal);
        return 1;
    }
    printf("%d %d\n", place[0], place[1]);
    return 0;
}
