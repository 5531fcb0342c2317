/* check: reads any number of files, and says of each whether it is accepted, or where and why it is refused. */
#include "generated.h"
#include "programs.h"

#include <getopt.h>
#include <inttypes.h>
#include <stdlib.h>

/* What was counted: files, those that were accepted and refused; the data blocks of compound files. */
struct tally {
    long files, accepted, refused, blocks, blocks_refused;
};

static int32_t ordinates[LASTARUNC_MOST_POINTS];

/* Prints an abscissa, and whether it was rounded. */
static void put_abscissa(int64_t x, int64_t exact)
{
    put_thousandths(stdout, x);
    if (!exact)
        printf(" (rounded)");
}

/* Prints what an accepted table holds. */
static void put_accepted(const struct lastarunc_file *table)
{
    int64_t missing = 0;
    for (int64_t i = 0; i < table->points; i++)
        missing += ordinates[i] == LASTARUNC_MISSING;
    printf("ok, %" PRId64 " point%s, ", table->points, table->points == 1 ? "" : "s");
    put_abscissa(table->first, table->first_exact);
    printf(" to ");
    put_abscissa(table->last, table->last_exact);
    if (missing)
        printf(", %" PRId64 " missing", missing);
    printf("\n");
}

/* Checks data block k of a file; is it accepted? */
static int check_block(const char *name, const struct text *text, const struct survey *survey, int64_t k, int quiet)
{
    struct lastarunc_file table;
    struct fault fault;
    int compound = survey->found.compound != 0;
    if (!read_data_block(text, survey, k, ordinates, &table, &fault)) {
        put_refusal(stdout, name, text, &fault, meaning(fault.number), survey, compound ? k : -1);
        return 0;
    }
    if (quiet)
        return 1;
    put_name(stdout, name);
    printf(": ");
    if (compound)
        put_block(stdout, text, survey, k);
    put_accepted(&table);
    return 1;
}

/* Checks a file that was read; is all of it accepted? */
static int check_text(const char *name, const struct text *text, int quiet, struct tally *tally)
{
    struct survey survey;
    struct fault fault;
    const char *means;
    long refused = 0;
    if (!survey_file(text, &survey, &fault, &means)) {
        put_refusal(stdout, name, text, &fault, means, &survey, -1);
        return 0;
    }
    int64_t blocks = survey.found.blocks;
    if (survey.found.compound) {
        if (!quiet) {
            put_name(stdout, name);
            printf(": compound, %" PRId64 " data block%s\n", blocks, blocks == 1 ? "" : "s");
        }
        tally->blocks += blocks;
    }
    for (int64_t k = 0; k < blocks; k++)
        refused += !check_block(name, text, &survey, k, quiet);
    if (survey.found.compound)
        tally->blocks_refused += refused;
    end_survey(&survey);
    return !refused;
}

/* Reads and checks a file. */
static void check_file(const char *name, int quiet, struct tally *tally)
{
    struct text text;
    tally->files++;
    if (!read_text(name, LASTARUNC_MOST_BYTES + 1, &text))
        return;
    if (check_text(name, &text, quiet, tally))
        tally->accepted++;
    else
        tally->refused++;
    free(text.bytes);
}

/* The last line: what was counted. */
static void put_tally(const struct tally *tally)
{
    long unread = tally->files - tally->accepted - tally->refused;
    printf("%ld file%s: %ld accepted, %ld refused", tally->files, tally->files == 1 ? "" : "s", tally->accepted,
           tally->refused);
    if (unread)
        printf(", %ld not read", unread);
    if (tally->blocks)
        printf("; %ld data block%s in compound files: %ld accepted, %ld refused", tally->blocks,
               tally->blocks == 1 ? "" : "s", tally->blocks - tally->blocks_refused, tally->blocks_refused);
    printf("\n");
}

int check_command(int count, char **arguments)
{
    static const struct option options[] = {
        {"help", no_argument, NULL, 'h'}, {"quiet", no_argument, NULL, 'q'}, {0, 0, 0, 0}};
    struct tally tally = {0};
    int quiet = 0, wrong = 0, option;
    while ((option = getopt_long(count, arguments, "hq", options, NULL)) != -1) {
        if (option == 'h')
            return fputs(HELP_check, stdout), end_output(ALL_ACCEPTED);
        if (option == 'q')
            quiet = 1;
        else
            wrong = 1;
    }
    if (optind == count) {
        fprintf(stderr, "which files? `lastarunc check --help` says more\n");
        return WRONG_USE;
    }
    for (int i = optind; i < count; i++)
        check_file(arguments[i], quiet, &tally);
    if (!quiet)
        put_tally(&tally);
    return end_output(wrong ? WRONG_USE : tally.accepted < tally.files ? SOME_REFUSED : ALL_ACCEPTED);
}
