/*
 * Reads a file from before tabs were refused in tables: as it is, and then converted in place:
 *     convert_old FILE
 */
#include "lastarunc.h"

#include <inttypes.h>
#include <stdio.h>

static uint8_t file[LASTARUNC_MOST_BYTES + 1]; /* one more: a longer file is refused by the library */
static int32_t ordinates[LASTARUNC_MOST_POINTS];

/* Reads the file and prints its ordinates, or where it is refused. */
static void print_read(const char *what, size_t length)
{
    struct lastarunc_file table;
    printf("%s:", what);
    if (lastarunc_read_file(file, length, ordinates, LASTARUNC_MOST_POINTS, &table)) {
        printf(" refused %" PRId64 " at line %" PRId64 ", column %" PRId64 "\n", table.refused, table.line,
               table.column);
        return;
    }
    for (int64_t i = 0; i < table.points; i++)
        if (ordinates[i] == LASTARUNC_MISSING)
            printf(" ?");
        else
            printf(" %" PRId32, ordinates[i]);
    printf("\n");
}

int main(int argc, char **argv)
{
    FILE *in = argc == 2 ? fopen(argv[1], "rb") : NULL;
    if (!in) {
        fprintf(stderr, "convert_old FILE\n");
        return 2;
    }
    size_t length = fread(file, 1, sizeof file, in);
    fclose(in);
    print_read("as it is", length);
    if (!lastarunc_detab_file(file, length))
        printf("no table to convert\n");
    print_read("converted", length);
    fwrite(file, 1, length, stdout);
    return 0;
}
