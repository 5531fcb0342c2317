/*
 * Asks how long a text and a file will be, allocates just that, and writes them: in all four forms of a table, and as a
 * file. One byte less is refused with 15.
 */
#include "lastarunc.h"

#include <inttypes.h>
#include <stdio.h>
#include <stdlib.h>
#include <string.h>

/* Six points from 0 to 2.5; the third was not measured. */
static const int32_t counts[] = {1, 2, LASTARUNC_MISSING, 4, 4, 4};
enum { POINTS = sizeof counts / sizeof *counts, FIRST = 0, LAST = 2500 };
static const char *const forms[] = {"DIFDUP", "AFFN", "PAC", "SQZ"};

/* Prints what an answer says: the length, or the refusal's number. */
static void print_answer(const char *what, const struct lastarunc_text *answer)
{
    if (answer->refused)
        printf("%s: refused %" PRId64 "\n", what, answer->refused);
    else
        printf("%s: %" PRId64 " bytes\n", what, answer->length);
}

/* A table in a form, written into just so many bytes as it has, and into one less. */
static void write_in(uint64_t form)
{
    struct lastarunc_text measured, written;
    lastarunc_text_length(form, FIRST, LAST, POINTS, counts, POINTS, &measured);
    print_answer(forms[form], &measured);
    size_t length = (size_t)measured.length;
    uint8_t *text = malloc(length);
    if (!text)
        exit(2);
    lastarunc_write_form(form, FIRST, LAST, POINTS, counts, POINTS, text, length - 1, &written);
    print_answer("  into one byte less", &written);
    lastarunc_write_form(form, FIRST, LAST, POINTS, counts, POINTS, text, length, &written);
    print_answer("  into just as many", &written);
    fwrite(text, 1, length, stdout);
    free(text);
}

int main(void)
{
    for (uint64_t form = LASTARUNC_DIFDUP; form <= LASTARUNC_SQZ; form++)
        write_in(form);

    static const char title[] = "six points";
    static const struct lastarunc_scales scales = {
        .xfactor = {1, 0},
        .yfactor = {1, 0},
        .firstx = {0, 0},
        .lastx = {25, -1},
        .firsty = {1, 0},
    };
    struct lastarunc_text measured, written;
    const uint8_t *name = (const uint8_t *)title;
    lastarunc_file_length(name, strlen(title), POINTS, &scales, counts, POINTS, &measured);
    print_answer("the file", &measured);
    uint8_t *file = malloc((size_t)measured.length);
    if (!file)
        return 2;
    lastarunc_write_file(name, strlen(title), POINTS, &scales, counts, POINTS, file, (size_t)measured.length, &written);
    print_answer("  written", &written);
    printf("  of at most %zu\n", LASTARUNC_FILE_CEILING(POINTS));
    free(file);

    lastarunc_text_length(LASTARUNC_DIFDUP, FIRST, FIRST, POINTS, counts, POINTS, &measured);
    print_answer("from 0 to 0", &measured);
    return 0;
}
