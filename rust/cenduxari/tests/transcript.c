/* The paper's transcript, called from C. Prints what `rehearse` does. */
#include "cenduxari.h"

#include <inttypes.h>
#include <stdio.h>
#include <stdlib.h>

static uint64_t rows[CENDUXARI_ROWS_LEN];
static uint64_t out[2];

static void say(uint64_t refusal) {
    if (refusal != 0) {
        printf("no %" PRIu64 "\n", refusal);
        return;
    }
    printf("ok %" PRIu64 "\n", out[0]);
    for (uint64_t i = 0; i < out[1]; i++) {
        const uint64_t *row = rows + 6 * i;
        printf("t %" PRIu64 " %" PRIu64 " %" PRIu64, row[0], row[1], row[2]);
        printf(" %" PRIu64 " %" PRIu64 " %" PRIu64 "\n", row[3], row[4], row[5]);
    }
}

int main(void) {
    size_t len = cenduxari_book_words(1);
    uint64_t *book = malloc(len * sizeof *book);
    if (book == NULL) return 1;
    say(cenduxari_open(book, len, 1, 0, 1000000, out));
    say(cenduxari_enrol(book, len, 2, 100, 0, out));
    say(cenduxari_enrol(book, len, 3, 100, 0, out));
    say(cenduxari_clear(book, len, rows, CENDUXARI_ROWS_LEN, out));
    say(cenduxari_order(book, len, 1, 0, 8, 455000, 5, rows, CENDUXARI_ROWS_LEN, out));
    say(cenduxari_order(book, len, 2, 1, 8, 460000, 7, rows, CENDUXARI_ROWS_LEN, out));
    say(cenduxari_close(book, len, out));
    /* On a refusal both numbers are 0, whatever stood there. */
    out[0] = out[1] = 7;
    say(cenduxari_enrol(book, len, 5, 100, 0, out));
    if (out[0] != 0 || out[1] != 0) return 2;
    uint64_t points[CENDUXARI_POINTS_LEN];
    out[0] = out[1] = 7;
    if (cenduxari_curve(book, len, 2, 0, points, CENDUXARI_POINTS_LEN, out) != 0) return 3;
    if (out[0] != 0 || out[1] != 0) return 4;
    printf("p %" PRIu64 " %" PRIu64 "\n", points[16], points[17]);
    free(book);
    return 0;
}
