/*
 * Writes a spool of three files, one of them damaged, and reports it as the library does each night: a line a file, then
 * the totals.
 */
#include "lastarunc.h"

#include <inttypes.h>
#include <stdio.h>
#include <string.h>

static uint8_t spool[4096];
static size_t length;
static int32_t ordinates[LASTARUNC_MOST_POINTS];

/* Puts a file behind the spool, with its mark and its length before it. */
static void put_file(const uint8_t *file, size_t n)
{
    const uint8_t before[] = {0x4A, 0x44, (uint8_t)(n >> 16), (uint8_t)(n >> 8), (uint8_t)n};
    memcpy(spool + length, before, sizeof before);
    memcpy(spool + length + sizeof before, file, n);
    length += sizeof before + n;
}

/* Puts a file with these ordinates. */
static void put_table(const char *title, const int32_t *counts, size_t points, int64_t first)
{
    const struct lastarunc_scales scales = {
        .xfactor = {1, 0}, .yfactor = {1, 0}, .firstx = {0, 0}, .lastx = {1, 0}, .firsty = {first, 0}};
    uint8_t file[LASTARUNC_FILE_CEILING(8)];
    struct lastarunc_text written;
    lastarunc_write_file((const uint8_t *)title, strlen(title), points, &scales, counts, points, file, sizeof file,
                         &written);
    put_file(file, (size_t)written.length);
}

/* Prints a level, or that there is none. */
static void print_level(const char *what, int64_t level)
{
    if (level == LASTARUNC_NONE)
        printf(", %s none", what);
    else
        printf(", %s %" PRId64, what, level);
}

static void print_report(const struct lastarunc_progress *now, const struct lastarunc_report *r)
{
    printf("file %" PRId64 ": ", now->seen);
    if (r->refused) {
        printf("refused %" PRId64 " at line %" PRId64 ", column %" PRId64 "\n", r->refused, r->line, r->column);
        return;
    }
    printf("%" PRId64 " points, %" PRId64 " missing", r->points, r->missing);
    print_level("lowest", r->lowest);
    print_level("highest", r->highest);
    printf(", sum %" PRId64, r->sum);
    print_level("faintest", r->faintest);
    printf("\n");
}

int main(void)
{
    static const int32_t peak[] = {0, 1, -3, LASTARUNC_MISSING, 250};
    static const int32_t none[] = {LASTARUNC_MISSING, LASTARUNC_MISSING};
    put_table("a peak", peak, 5, 0);
    put_file((const uint8_t *)"##TITLE=cut off\n##XFACTOR=1\n", 28);
    put_table("nothing", none, 2, 0);

    struct lastarunc_progress progress = {0};
    struct lastarunc_report report;
    for (;;) {
        lastarunc_next_report(spool, length, ordinates, LASTARUNC_MOST_POINTS, &progress, &report);
        if (report.ended)
            break;
        print_report(&progress, &report);
    }
    printf("accepted %" PRId64 " of %" PRId64 ", %" PRId64 " points, %" PRId64 " missing, sum %" PRId64 "\n",
           progress.files, progress.seen, progress.points, progress.missing, progress.sum);
    if (report.refused)
        printf("the spool is refused with %" PRId64 " at %" PRId64 "\n", report.refused, report.place);
    return 0;
}
