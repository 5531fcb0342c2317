/* write: ordinates as text in, a table in one of the four forms or a whole file out. */
#include "generated.h"
#include "given.h"

#include <getopt.h>
#include <inttypes.h>
#include <stdlib.h>
#include <string.h>

/* Most bytes of the text in which ordinates are given. */
enum { MOST_GIVEN = 16 * 1024 * 1024 };

/* The options that have a value; FILE_WANTED and HELP have none. */
enum { FORM, FIRST, LAST, TITLE, FIRSTX, LASTX, XFACTOR, YFACTOR, FIRSTY, POINTS, VALUES, FILE_WANTED, HELP };

static const struct option options[] = {
    {"form", required_argument, NULL, FORM},
    {"first", required_argument, NULL, FIRST},
    {"last", required_argument, NULL, LAST},
    {"title", required_argument, NULL, TITLE},
    {"firstx", required_argument, NULL, FIRSTX},
    {"lastx", required_argument, NULL, LASTX},
    {"xfactor", required_argument, NULL, XFACTOR},
    {"yfactor", required_argument, NULL, YFACTOR},
    {"firsty", required_argument, NULL, FIRSTY},
    {"points", required_argument, NULL, POINTS},
    {"file", no_argument, NULL, FILE_WANTED},
    {"help", no_argument, NULL, HELP},
    {0, 0, 0, 0},
};

/* What was asked for: a file or a table, and each option's value, or null. */
struct wanted {
    int file;
    const char *values[VALUES];
};

/* What the options say: points, or -1; a file's title and numbers, or, without a title, a table's form and frame. */
struct plan {
    int64_t points;
    const char *title;
    int firsty_given;
    struct lastarunc_scales scales;
    uint64_t form;
    int64_t first, last;
};

/* The forms by their numbers, and how many they are. */
static const char *const forms[] = {
    [LASTARUNC_DIFDUP] = "difdup", [LASTARUNC_AFFN] = "affn", [LASTARUNC_PAC] = "pac", [LASTARUNC_SQZ] = "sqz"};
enum { FORMS = sizeof forms / sizeof *forms };

static struct ordinates given;
static uint8_t written[LASTARUNC_FILE_CEILING(LASTARUNC_MOST_POINTS)];

/* Says what is wrong with how the command is used; 0. */
static int wrong_use(const char *option, const char *value, const char *words)
{
    fprintf(stderr, "lastarunc write: --%s %s%s%s; `lastarunc write --help` says more\n", option, value,
            *value ? " " : "", words);
    return 0;
}

/* Reads an option's decimal; without the option it is `otherwise`, or a word if that is null. */
static int decimal_of(const struct wanted *wanted, int option, const char *otherwise, struct lastarunc_decimal *decimal)
{
    const char *word = wanted->values[option] ? wanted->values[option] : otherwise;
    if (!word)
        return wrong_use(options[option].name, "", "is wanted");
    const char *wrong = read_decimal(word, decimal);
    return wrong ? wrong_use(options[option].name, word, wrong) : 1;
}

/* Reads an option's decimal in thousandths. */
static int thousandths_of(const struct wanted *wanted, int option, int64_t *x)
{
    struct lastarunc_decimal decimal;
    if (!decimal_of(wanted, option, NULL, &decimal))
        return 0;
    const char *wrong = in_thousandths(&decimal, x);
    return wrong ? wrong_use(options[option].name, wanted->values[option], wrong) : 1;
}

/* How many points are wanted, or -1 if it is not said. */
static int points_of(const struct wanted *wanted, int64_t *points)
{
    const char *word = wanted->values[POINTS];
    *points = -1;
    if (!word)
        return 1;
    if (!*word || strlen(word) > 9 || word[strspn(word, "0123456789")])
        return wrong_use("points", word, "is no number of points");
    *points = strtol(word, NULL, 10);
    return 1;
}

/* Reads the options of a file, and as many of its five decimals as are given. */
static int plan_file(const struct wanted *wanted, struct plan *plan)
{
    struct lastarunc_scales *scales = &plan->scales;
    plan->title = wanted->values[TITLE];
    if (!plan->title)
        return wrong_use("title", "", "is wanted");
    plan->firsty_given = wanted->values[FIRSTY] != NULL;
    return decimal_of(wanted, XFACTOR, "1", &scales->xfactor) && decimal_of(wanted, YFACTOR, "1", &scales->yfactor) &&
           decimal_of(wanted, FIRSTX, NULL, &scales->firstx) && decimal_of(wanted, LASTX, NULL, &scales->lastx) &&
           decimal_of(wanted, FIRSTY, "0", &scales->firsty);
}

/* Reads the options of a table. */
static int plan_table(const struct wanted *wanted, struct plan *plan)
{
    const char *word = wanted->values[FORM];
    plan->form = 0;
    while (plan->form < FORMS && strcmp(word, forms[plan->form]))
        plan->form++;
    if (plan->form == FORMS)
        return wrong_use("form", word, "is no form: difdup, affn, pac or sqz is wanted");
    return thousandths_of(wanted, FIRST, &plan->first) && thousandths_of(wanted, LAST, &plan->last);
}

/* Says on standard error which quotients of a file were rounded. */
static void put_rounded(const struct lastarunc_text *answer)
{
    if (!answer->first_exact)
        fprintf(stderr, "FIRSTX / XFACTOR is not a whole number of thousandths: rounded\n");
    if (!answer->last_exact)
        fprintf(stderr, "LASTX / XFACTOR is not a whole number of thousandths: rounded\n");
    if (!answer->firsty_exact)
        fprintf(stderr, "FIRSTY / YFACTOR is not a whole number: rounded\n");
}

/* Writes a file; 0, after a word, if FIRSTY is wanting. */
static int write_whole(struct plan *plan, size_t points, struct lastarunc_text *answer)
{
    struct lastarunc_scales *scales = &plan->scales;
    if (!plan->firsty_given && !first_times(given.count ? given.list[0] : 0, &scales->yfactor, &scales->firsty))
        return wrong_use("firsty", "", "is wanted: the first ordinate times YFACTOR has over 9 digits");
    if (!lastarunc_write_file((const uint8_t *)plan->title, strlen(plan->title), points, scales, given.list,
                              given.count, written, sizeof written, answer))
        put_rounded(answer);
    return 1;
}

/* Are the options those of a file, or those of a table? 0, after a word, if they are mixed. */
static int options_agree(const struct wanted *wanted)
{
    int from = wanted->file ? FORM : TITLE, to = wanted->file ? TITLE : POINTS;
    if (!wanted->file && !wanted->values[FORM]) {
        fprintf(stderr, "lastarunc write: --form FORM or --file is wanted; `lastarunc write --help` says more\n");
        return 0;
    }
    for (int i = from; i < to; i++)
        if (wanted->values[i])
            return wrong_use(options[i].name, "", wanted->file ? "is for a table" : "is for a file: give --file too");
    return 1;
}

/* Reads the ordinates; 0, after a word, if they cannot be read. */
static int take_ordinates(const char *name)
{
    struct text text;
    if (!read_text(name, MOST_GIVEN + 1, &text))
        return 0;
    if (text.length > MOST_GIVEN) {
        put_name(stderr, name);
        fprintf(stderr, ": more than 16 MiB of ordinates\n");
        return 0;
    }
    int taken = read_ordinates(name, &text, &given);
    free(text.bytes);
    return taken;
}

/* Reads ordinates, writes what is planned, and prints it, or why it is refused. */
static int write_planned(struct plan *plan, const char *name)
{
    struct lastarunc_text answer;
    if (!take_ordinates(name))
        return SOME_REFUSED;
    size_t points = plan->points < 0 ? given.count : (size_t)plan->points;
    if (plan->title) {
        if (!write_whole(plan, points, &answer))
            return WRONG_USE;
    } else {
        lastarunc_write_form(plan->form, plan->first, plan->last, points, given.list, given.count, written,
                             sizeof written, &answer);
    }
    if (answer.refused) {
        fprintf(stderr, "lastarunc write: refused %" PRId64 ": %s\n", answer.refused, written_meaning(answer.refused));
        return SOME_REFUSED;
    }
    if (points < given.count)
        fprintf(stderr, "the first %zu of %zu ordinates are written\n", points, given.count);
    fwrite(written, 1, (size_t)answer.length, stdout);
    return end_output(ALL_ACCEPTED);
}

int write_command(int count, char **arguments)
{
    struct wanted wanted = {0};
    int option;
    while ((option = getopt_long(count, arguments, "h", options, NULL)) != -1) {
        if (option == HELP || option == 'h')
            return fputs(HELP_write, stdout), end_output(ALL_ACCEPTED);
        if (option == '?')
            return WRONG_USE;
        if (option == FILE_WANTED)
            wanted.file = 1;
        else
            wanted.values[option] = optarg;
    }
    if (count - optind > 1) {
        fprintf(stderr, "lastarunc write: one file of ordinates at most; `lastarunc write --help` says more\n");
        return WRONG_USE;
    }
    struct plan plan = {0};
    if (!options_agree(&wanted) || !points_of(&wanted, &plan.points))
        return WRONG_USE;
    if (wanted.file ? !plan_file(&wanted, &plan) : !plan_table(&wanted, &plan))
        return WRONG_USE;
    return write_planned(&plan, optind < count ? arguments[optind] : "-");
}
