/*
 * Writes a small file, prints it, reads it back and compares the ordinates. Then it gives a FIRSTY that is not the
 * first ordinate's, which is refused.
 */
#include "lastarunc.h"

#include <inttypes.h>
#include <stdio.h>
#include <string.h>

/* Eight points from 0.5 to 4, counted in tenths; the fifth was not measured. The first is 10 tenths, so FIRSTY is 1. */
static const int32_t counts[] = {10, 12, 14, 16, LASTARUNC_MISSING, -3, -3, 250};
enum { POINTS = sizeof counts / sizeof *counts };
static const char title[] = "eight points";
static const struct lastarunc_scales scales = {
    .xfactor = {1, 0},
    .yfactor = {1, -1},
    .firstx = {5, -1},
    .lastx = {4, 0},
    .firsty = {1, 0},
};

static uint8_t text[15 * POINTS + 297]; /* enough for every file, as the header says */

/* Writes the file with these numbers; answers as the library does. */
static struct lastarunc_text write_with(const struct lastarunc_scales *numbers)
{
    struct lastarunc_text written;
    lastarunc_write_file((const uint8_t *)title, strlen(title), POINTS, numbers, counts, POINTS, text, sizeof text,
                         &written);
    return written;
}

int main(void)
{
    struct lastarunc_text written = write_with(&scales);
    if (written.refused) {
        fprintf(stderr, "not written: refused %" PRId64 "\n", written.refused);
        return 1;
    }
    printf("%" PRId64 " bytes\n", written.length);
    fwrite(text, 1, (size_t)written.length, stdout);

    int32_t back[POINTS];
    struct lastarunc_file file;
    if (lastarunc_read_file(text, (size_t)written.length, back, POINTS, &file)) {
        fprintf(stderr, "not read: line %" PRId64 ", column %" PRId64 ": refused %" PRId64 "\n", file.line, file.column,
                file.refused);
        return 1;
    }
    printf("%" PRId64 " points from %" PRId64 " to %" PRId64 " thousandths, ", file.points, file.first, file.last);
    printf("%s\n", memcmp(back, counts, sizeof counts) ? "other ordinates" : "the same ordinates");

    struct lastarunc_scales wrong = scales;
    wrong.firsty.mantissa = 2;
    printf("FIRSTY 2: refused %" PRId64 "\n", write_with(&wrong).refused);
    return 0;
}
