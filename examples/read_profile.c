/*
 * Reads a file of an ion mobility analyser with the site's page beside it, and shows the fifteen texts that document 001
 * wants, each with its place and with whose it is:
 *     read_profile FILE PAGE
 * A refusal is said on standard error, as `NAME:LINE:COLUMN: refused NUMBER`, with the name of the one it counts in, and
 * the program ends with 1.
 */
#include "lastarunc.h"

#include <ctype.h>
#include <inttypes.h>
#include <stdio.h>

static uint8_t file[LASTARUNC_MOST_BYTES + 1]; /* one more: a longer file is refused by the library */
static uint8_t page[65536];
static int32_t ordinates[LASTARUNC_MOST_POINTS];

static const char *const names[LASTARUNC_WANTED] = {
    [LASTARUNC_JCAMP_DX] = "JCAMP-DX",
    [LASTARUNC_DATA_TYPE] = "DATA TYPE",
    [LASTARUNC_DATA_CLASS] = "DATA CLASS",
    [LASTARUNC_ORIGIN] = "ORIGIN",
    [LASTARUNC_OWNER] = "OWNER",
    [LASTARUNC_IMS_PRESSURE] = ".IMS PRESSURE",
    [LASTARUNC_CARRIER_GAS] = ".CARRIER GAS",
    [LASTARUNC_DRIFT_GAS] = ".DRIFT GAS",
    [LASTARUNC_ELECTRIC_FIELD] = ".ELECTRIC FIELD",
    [LASTARUNC_ION_POLARITY] = ".ION POLARITY",
    [LASTARUNC_IONIZATION_MODE] = ".IONIZATION MODE",
    [LASTARUNC_IMS_TEMPERATURE] = ".IMS TEMPERATURE",
    [LASTARUNC_SHUTTER_OPENING_TIME] = ".SHUTTER OPENING TIME",
    [LASTARUNC_XUNITS] = "XUNITS",
    [LASTARUNC_YUNITS] = "YUNITS",
};

/* Reads a file whole, as far as there is room; its length. */
static size_t take(const char *name, uint8_t *bytes, size_t room)
{
    FILE *in = fopen(name, "rb");
    if (!in) {
        perror(name);
        return 0;
    }
    size_t length = fread(bytes, 1, room, in);
    fclose(in);
    return length;
}

/* Prints a text on one line, without the blanks and line ends around it. */
static void print_shown(const struct lastarunc_shown *shown)
{
    const uint8_t *text = shown->on_page ? page : file;
    int64_t from = shown->from, to = shown->to;
    while (from < to && isspace(text[from]))
        from++;
    while (from < to && isspace(text[to - 1]))
        to--;
    for (; from < to; from++)
        putchar(text[from] == '\n' ? ' ' : text[from]);
    putchar('\n');
}

int main(int argc, char **argv)
{
    if (argc != 3) {
        fprintf(stderr, "read_profile FILE PAGE\n");
        return 2;
    }
    size_t file_length = take(argv[1], file, sizeof file), page_length = take(argv[2], page, sizeof page);

    struct lastarunc_profile profile;
    struct lastarunc_shown shown[LASTARUNC_WANTED];
    if (lastarunc_read_profile(file, file_length, page, page_length, ordinates, LASTARUNC_MOST_POINTS, shown,
                               &profile)) {
        fprintf(stderr, "%s:%" PRId64 ":%" PRId64 ": refused %" PRId64 "\n", argv[profile.on_page ? 2 : 1],
                profile.line, profile.column, profile.refused);
        return 1;
    }
    printf("%" PRId64 " points\n", profile.points);
    for (int k = 0; k < LASTARUNC_WANTED; k++) {
        printf("%s %4" PRId64 " %s: ", shown[k].on_page ? "page" : "file", shown[k].from, names[k]);
        print_shown(&shown[k]);
    }
    return 0;
}
