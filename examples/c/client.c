/* A client of the margin call: answers the text on standard input, on standard output. */
#include "dolzhivar.h"

#include <stdio.h>
#include <string.h>

/* One byte more than a text may have tells that it is too long. */
static uint8_t text[DOLZHIVAR_TEXT_LIMIT + 1];

static uint8_t answer[DOLZHIVAR_ANSWER_MEMORY + 100];

/* How many bytes of `answer`, from `start` on, are not what the memory was filled with. */
static size_t changed(size_t start) {
    size_t count = 0;
    for (size_t i = start; i < sizeof answer; i++) {
        if (answer[i] != '.') {
            count++;
        }
    }
    return count;
}

int main(void) {
    size_t length = fread(text, 1, sizeof text, stdin);
    if (ferror(stdin)) {
        fprintf(stderr, "the text could not be read\n");
        return 1;
    }
    memset(answer, '.', sizeof answer);

    /* A memory that is one byte too short is refused, and stays as it was. */
    if (dolzhivar_margin(text, length, answer, DOLZHIVAR_ANSWER_MEMORY - 1) != DOLZHIVAR_ANSWER_MEMORY_TOO_SHORT
        || changed(0) != 0) {
        fprintf(stderr, "a short memory was not refused\n");
        return 1;
    }

    int64_t count = dolzhivar_margin(text, length, answer, sizeof answer);
    size_t written = count > 0 ? (size_t)count : 0;
    if (changed(written) != 0) {
        fprintf(stderr, "bytes behind the answer were changed\n");
        return 1;
    }
    if (count < 0) {
        fprintf(stderr, "refused: %d\n", (int)-count);
        return 2;
    }
    if (fwrite(answer, 1, written, stdout) != written) {
        fprintf(stderr, "the answer could not be written\n");
        return 1;
    }
    return 0;
}
