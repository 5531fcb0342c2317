/* plot: draws the spectrum of a file, or of a data block of a compound one. */
#include "generated.h"
#include "picture.h"
#include "programs.h"

#include <getopt.h>
#include <inttypes.h>
#include <stdlib.h>
#include <string.h>

/* Most characters of units that are shown. */
enum { MOST_UNITS = 60 };

static int32_t ordinates[LASTARUNC_MOST_POINTS];

/* The units of an axis as they are shown, or another word if the file has none. */
static void units_shown(const struct text *text, const struct lastarunc_block *block, const char *record,
                        const char *otherwise, char shown[MOST_SHOWN + 1])
{
    if (!record_shown(text, block, record, shown))
        strcpy(shown, otherwise);
    if (strlen(shown) > MOST_UNITS)
        strcpy(&shown[MOST_UNITS - 3], "...");
}

/* The line under the title: the file's name without folders, the block of a compound file, and how many points. */
static void caption_of(const char *name, const struct survey *survey, int64_t k, int64_t points,
                       char caption[MOST_SHOWN + 1])
{
    const char *slash = strrchr(name, '/');
    size_t length = 0;
    name = !strcmp(name, "-") ? "standard input" : slash ? slash + 1 : name;
    for (; *name && length < 300; name++)
        caption[length++] = shown_byte((uint8_t)*name);
    if (survey->found.compound)
        length += (size_t)snprintf(&caption[length], MOST_SHOWN + 1 - length, ", block %" PRId64 " of %" PRId64, k + 1,
                                   survey->found.blocks);
    snprintf(&caption[length], MOST_SHOWN + 1 - length, ", %" PRId64 " point%s", points, points == 1 ? "" : "s");
}

/* Draws data block k of a file, or says why it is refused. */
static int plot_block(const char *name, const struct text *text, const struct survey *survey, int64_t k)
{
    const struct lastarunc_block *block = &survey->blocks[k];
    struct lastarunc_file table;
    struct fault fault;
    char title[MOST_SHOWN + 1], caption[MOST_SHOWN + 1], xunits[MOST_SHOWN + 1], yunits[MOST_SHOWN + 1];
    if (!read_data_block(text, survey, k, ordinates, &table, &fault)) {
        put_refusal(stderr, name, text, &fault, meaning(fault.number), survey, survey->found.compound ? k : -1);
        return SOME_REFUSED;
    }
    if (!record_shown(text, block, "TITLE", title))
        strcpy(title, "untitled");
    caption_of(name, survey, k, table.points, caption);
    units_shown(text, block, "XUNITS", "abscissa", xunits);
    units_shown(text, block, "YUNITS", "ordinate", yunits);
    double xfactor = record_number(text, block, "XFACTOR");
    draw(stdout, &(struct spectrum){
                     .title = title,
                     .caption = caption,
                     .xunits = xunits,
                     .yunits = yunits,
                     .first = xfactor * (double)table.first / 1000,
                     .last = xfactor * (double)table.last / 1000,
                     .yfactor = record_number(text, block, "YFACTOR"),
                     .ordinates = ordinates,
                     .points = (size_t)table.points,
                 });
    return end_output(ALL_ACCEPTED);
}

/* Draws a file: the data block that is wanted, from 1, or the first if that is 0. */
static int plot_text(const char *name, const struct text *text, long wanted)
{
    struct survey survey;
    struct fault fault;
    const char *means;
    if (!survey_file(text, &survey, &fault, &means)) {
        put_refusal(stderr, name, text, &fault, means, &survey, -1);
        return SOME_REFUSED;
    }
    int64_t blocks = survey.found.blocks;
    int status = SOME_REFUSED;
    if (wanted > blocks || blocks == 0) {
        put_name(stderr, name);
        fprintf(stderr, " has %" PRId64 " data block%s\n", blocks, blocks == 1 ? "" : "s");
    } else {
        if (!wanted && blocks > 1) {
            put_name(stderr, name);
            fprintf(stderr, " has %" PRId64 " data blocks; this is the first, --block K draws another\n", blocks);
        }
        status = plot_block(name, text, &survey, wanted ? wanted - 1 : 0);
    }
    end_survey(&survey);
    return status;
}

/* The number of a data block, from 1; 0 if it is none. */
static long block_of(const char *word)
{
    return *word && strlen(word) < 8 && !word[strspn(word, "0123456789")] ? strtol(word, NULL, 10) : 0;
}

int plot_command(int count, char **arguments)
{
    static const struct option options[] = {
        {"help", no_argument, NULL, 'h'}, {"block", required_argument, NULL, 'b'}, {0, 0, 0, 0}};
    struct text text;
    long wanted = 0;
    int option;
    while ((option = getopt_long(count, arguments, "h", options, NULL)) != -1) {
        if (option == 'h')
            return fputs(HELP_plot, stdout), end_output(ALL_ACCEPTED);
        if (option != 'b')
            return WRONG_USE;
        wanted = block_of(optarg);
        if (!wanted) {
            fprintf(stderr, "lastarunc plot: --block %s is no number of a block, from 1\n", optarg);
            return WRONG_USE;
        }
    }
    if (count - optind != 1) {
        fprintf(stderr, "lastarunc plot: one file is drawn; `lastarunc plot --help` says more\n");
        return WRONG_USE;
    }
    const char *name = arguments[optind];
    if (!read_text(name, LASTARUNC_MOST_BYTES + 1, &text))
        return SOME_REFUSED;
    return plot_text(name, &text, wanted);
}
