/*
 * Writes a small table in DIFDUP form, prints the text, reads it back and prints the points. Then it writes the same
 * table in AFFN, which a person can read, and prints that.
 */
#include "lastarunc.h"

#include <inttypes.h>
#include <stdio.h>

int main(void)
{
    /* Eight points from 0.500 to 4.000; the fifth was not measured. */
    static const int32_t counts[] = {10, 12, 14, 16, LASTARUNC_MISSING, -3, -3, 250};
    enum { POINTS = sizeof counts / sizeof *counts };
    const int64_t first = 500, last = 4000;

    uint8_t text[15 * POINTS + 44]; /* enough for every text, as the header says */
    struct lastarunc_text written;
    if (lastarunc_write_table(first, last, POINTS, counts, POINTS, text, sizeof text, &written)) {
        fprintf(stderr, "not written: refused %" PRId64 "\n", written.refused);
        return 1;
    }
    printf("%" PRId64 " bytes\n", written.length);
    fwrite(text, 1, (size_t)written.length, stdout);

    int32_t back[POINTS];
    struct lastarunc_table table;
    if (lastarunc_read_table(first, last, POINTS, text, (size_t)written.length, back, POINTS, &table)) {
        fprintf(stderr, "not read: line %" PRId64 ", column %" PRId64 ": refused %" PRId64 "\n", table.line,
                table.column, table.refused);
        return 1;
    }
    printf("%" PRId64 " points:", table.points);
    for (int i = 0; i < POINTS; i++)
        if (back[i] == LASTARUNC_MISSING)
            printf(" ?");
        else
            printf(" %" PRId32, back[i]);
    printf("\n");

    if (lastarunc_write_form(LASTARUNC_AFFN, first, last, POINTS, counts, POINTS, text, sizeof text, &written)) {
        fprintf(stderr, "not written: refused %" PRId64 "\n", written.refused);
        return 1;
    }
    printf("%" PRId64 " bytes in AFFN\n", written.length);
    fwrite(text, 1, (size_t)written.length, stdout);
    return 0;
}
