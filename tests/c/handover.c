#include <errno.h>
#include <inttypes.h>
#include <stdio.h>
#include "uldaseong.h"

static int failed(const char *what) {
    perror(what);
    return 1;
}

int main(void) {
    uint64_t counts[2] = {0, 0}; /* an opened session */
    uint8_t note[ULDASEONG_NOTE + 1], input[ULDASEONG_RECORD], output[ULDASEONG_RECORD], refusal = 0;
    size_t length;
    FILE *file = fopen("session.note", "rb"); /* of the run before, if there was one */
    if (file != NULL) {
        length = fread(note, 1, sizeof note, file); /* a byte more, so that a file that is too long is refused */
        if (ferror(file))
            return failed("session.note");
        refusal = uldaseong_restore(counts, note, length);
        fclose(file);
    } else if (errno != ENOENT)
        return failed("session.note");
    for (uint64_t record = 1; refusal == 0 && (length = fread(input, 1, sizeof input, stdin)) > 0; record++) {
        uint8_t status = uldaseong_feed(counts, input, length, output, sizeof output);
        if (status != 0)
            printf("refused %d at %" PRIu64 "\n", status, record); /* else the moved record is in output */
    }
    if (ferror(stdin))
        return failed("standard input");
    if (refusal == 0)
        refusal = uldaseong_save(counts, note, ULDASEONG_NOTE);
    if (refusal != 0) {
        fprintf(stderr, "session.note: refused %d\n", refusal);
        return 1;
    }
    if (fflush(stdout) != 0)
        return failed("standard output");
    file = fopen("session.note.new", "wb"); /* the old note stands until the new one is whole */
    if (file == NULL || fwrite(note, 1, ULDASEONG_NOTE, file) != ULDASEONG_NOTE || fclose(file) != 0 ||
        rename("session.note.new", "session.note") != 0)
        return failed("session.note.new");
    printf("moved %" PRIu64 " refused %" PRIu64 "\n", counts[0], counts[1]);
    return fflush(stdout) != 0 ? failed("standard output") : 0;
}
