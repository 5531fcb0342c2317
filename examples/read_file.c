/*
 * Reads a JCAMP-DX file and prints its points as they are tabulated, not multiplied by XFACTOR and YFACTOR, one
 * `abscissa ordinate` on a line, `?` for an ordinate that is missing:
 *     read_file FILE
 * A refusal is said on standard error, as `FILE:LINE:COLUMN: refused NUMBER: MEANING`, which editors understand; the
 * program then ends with 1.
 */
#include "lastarunc.h"

#include <inttypes.h>
#include <stdio.h>

/* What each refusal number means. */
static const char *const words[] = {
    [1] = "the frame or the table is outside its limits",
    [2] = "there is no room for the points",
    [3] = "a byte that cannot stand there",
    [4] = "a line of the table does not start with an abscissa",
    [5] = "a value is misspelled",
    [6] = "an abscissa does not belong to its point",
    [7] = "a line of the table has no values",
    [8] = "a difference or a repetition is not allowed there",
    [9] = "an ordinate is out of range",
    [10] = "a line's check value does not agree with the line before",
    [11] = "there are more points than NPOINTS says",
    [12] = "there are fewer points than NPOINTS says",
    [13] = "the last check line is absent",
    [16] = "a line of the table has more than 80 bytes",
    [19] = "the file is too long",
    [20] = "a label has no `=`, or is too long",
    [21] = "the file does not start with TITLE",
    [22] = "there is no END",
    [23] = "a label stands twice",
    [24] = "a second TITLE before END",
    [25] = "a label that is needed is absent",
    [26] = "a number is misspelled or not allowed",
    [27] = "XYDATA is not (X++(Y..Y))",
    [28] = "FIRSTX or LASTX is too large for XFACTOR",
    [29] = "FIRSTY does not agree with the first ordinate",
};

/* Prints thousandths as a decimal. */
static void print_thousandths(int64_t x)
{
    uint64_t size = x < 0 ? -(uint64_t)x : (uint64_t)x;
    printf("%s%" PRIu64 ".%03" PRIu64, x < 0 ? "-" : "", size / 1000, size % 1000);
}

/* The abscissa of point i, to the nearest thousandth; an index and a span are small enough for 64 bits. */
static int64_t abscissa(int64_t first, int64_t last, int64_t points, int64_t i)
{
    if (points == 1)
        return first;
    int64_t steps = points - 1, above = 2 * i * (last - first) + steps;
    return first + above / (2 * steps) - (above % (2 * steps) < 0);
}

int main(int argc, char **argv)
{
    static uint8_t file[LASTARUNC_MOST_BYTES + 1]; /* one more: a longer file is refused by the library */
    static int32_t ordinates[LASTARUNC_MOST_POINTS];
    if (argc != 2) {
        fprintf(stderr, "read_file FILE\n");
        return 2;
    }
    FILE *in = fopen(argv[1], "rb");
    if (!in) {
        perror(argv[1]);
        return 2;
    }
    size_t length = fread(file, 1, sizeof file, in);
    fclose(in);

    struct lastarunc_file table;
    if (lastarunc_read_file(file, length, ordinates, LASTARUNC_MOST_POINTS, &table)) {
        fprintf(stderr, "%s:%" PRId64 ":%" PRId64 ": refused %" PRId64 ": %s\n", argv[1], table.line, table.column,
                table.refused, words[table.refused]);
        return 1;
    }
    for (int64_t i = 0; i < table.points; i++) {
        print_thousandths(abscissa(table.first, table.last, table.points, i));
        if (ordinates[i] == LASTARUNC_MISSING)
            printf(" ?\n");
        else
            printf(" %" PRId32 "\n", ordinates[i]);
    }
    return 0;
}
