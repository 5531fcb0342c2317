/*
 * Lists the data blocks of a JCAMP-DX file, a compound one or a simple one, each on a line with its number and title,
 * and with its points, or where and why it is refused:
 *     list_blocks FILE
 * If the whole file is refused, that is said on standard error, as `FILE:LINE:COLUMN: refused NUMBER`, and the program
 * ends with 1.
 */
#include "lastarunc.h"

#include <ctype.h>
#include <inttypes.h>
#include <stdio.h>
#include <stdlib.h>

static uint8_t file[LASTARUNC_MOST_BYTES + 1]; /* one more: a longer file is refused by the library */
static int32_t ordinates[LASTARUNC_MOST_POINTS];

/* Prints the first line of a block's TITLE, without the blanks around it. */
static void print_title(size_t length, const struct lastarunc_block *block)
{
    struct lastarunc_record title;
    if (lastarunc_find_in_block(file, length, block, (const uint8_t *)"TITLE", 5, &title))
        return;
    int64_t from = title.from, to = from;
    while (to < title.to && file[to] != '\n')
        to++;
    while (from < to && isspace(file[from]))
        from++;
    while (from < to && isspace(file[to - 1]))
        to--;
    printf("%.*s", (int)(to - from), (const char *)&file[from]);
}

int main(int argc, char **argv)
{
    if (argc != 2) {
        fprintf(stderr, "list_blocks FILE\n");
        return 2;
    }
    FILE *in = fopen(argv[1], "rb");
    if (!in) {
        perror(argv[1]);
        return 2;
    }
    size_t length = fread(file, 1, sizeof file, in);
    fclose(in);

    /* Asked without memory for blocks it says how many there are; then it stores them. */
    struct lastarunc_blocks found;
    struct lastarunc_block none;
    if (lastarunc_find_blocks(file, length, &none, 0, &found)) {
        fprintf(stderr, "%s:%" PRId64 ":%" PRId64 ": refused %" PRId64 "\n", argv[1], found.line, found.column,
                found.refused);
        return 1;
    }
    struct lastarunc_block *blocks = malloc((size_t)found.blocks * sizeof *blocks + 1);
    if (!blocks)
        return 2;
    lastarunc_find_blocks(file, length, blocks, 4 * (size_t)found.blocks, &found);

    printf("%s, data blocks: %" PRId64 "\n", found.compound ? "compound" : "simple", found.blocks);
    for (int64_t k = 0; k < found.blocks; k++) {
        printf("%" PRId64 " ", k + 1);
        print_title(length, &blocks[k]);
        struct lastarunc_file table;
        if (lastarunc_read_block(file, length, &blocks[k], ordinates, LASTARUNC_MOST_POINTS, &table))
            printf(": refused %" PRId64 " at line %" PRId64 ", column %" PRId64 "\n", table.refused, table.line,
                   table.column);
        else
            printf(": %" PRId64 " points\n", table.points);
    }
    free(blocks);
    return 0;
}
