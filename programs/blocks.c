/* The data blocks of a file, simple or compound, and their records. */
#include "programs.h"

#include <inttypes.h>
#include <stdlib.h>
#include <string.h>

/* Is the whole file refused as a simple one, too? Then the words of a simple file are those to say. */
static int refused_as_simple(const struct text *text, const struct lastarunc_blocks *found)
{
    struct lastarunc_file simple;
    int32_t none;
    lastarunc_read_file(text->bytes, text->length, &none, 0, &simple);
    return simple.refused == found->refused && simple.place == found->place;
}

int survey_file(const struct text *text, struct survey *survey, struct fault *fault, const char **means)
{
    struct lastarunc_blocks *found = &survey->found;
    struct lastarunc_block none;
    survey->blocks = NULL;
    if (lastarunc_find_blocks(text->bytes, text->length, &none, 0, found)) {
        *fault = (struct fault){found->refused, found->place, found->line, found->column};
        *means = refused_as_simple(text, found) ? meaning(found->refused) : compound_meaning(found->refused);
        return 0;
    }
    survey->blocks = malloc((size_t)found->blocks * sizeof *survey->blocks + 1);
    if (!survey->blocks) {
        fprintf(stderr, "lastarunc: there is no memory\n");
        exit(SOME_REFUSED);
    }
    lastarunc_find_blocks(text->bytes, text->length, survey->blocks, 4 * (size_t)found->blocks, found);
    return 1;
}

void end_survey(struct survey *survey)
{
    free(survey->blocks);
}

int read_data_block(const struct text *text, const struct survey *survey, int64_t k, int32_t *ordinates,
                    struct lastarunc_file *table, struct fault *fault)
{
    if (survey->found.compound)
        lastarunc_read_block(text->bytes, text->length, &survey->blocks[k], ordinates, LASTARUNC_MOST_POINTS, table);
    else
        lastarunc_read_file(text->bytes, text->length, ordinates, LASTARUNC_MOST_POINTS, table);
    *fault = (struct fault){table->refused, table->place, table->line, table->column};
    return !table->refused;
}

/* Is this a blank or an end of line? */
static int is_space(uint8_t byte)
{
    return byte == ' ' || byte == '\t' || byte == '\r' || byte == '\n';
}

/* Does a comment start here? */
static int is_comment(const struct text *text, int64_t at, int64_t to)
{
    return at + 1 < to && text->bytes[at] == '$' && text->bytes[at + 1] == '$';
}

/* A block's record; 0 if it is absent. */
static int find_text(const struct text *text, const struct lastarunc_block *block, const char *name,
                     struct lastarunc_record *record)
{
    return !lastarunc_find_in_block(text->bytes, text->length, block, (const uint8_t *)name, strlen(name), record);
}

size_t record_shown(const struct text *text, const struct lastarunc_block *block, const char *name,
                    char shown[MOST_SHOWN + 1])
{
    struct lastarunc_record record;
    shown[0] = '\0';
    if (!find_text(text, block, name, &record))
        return 0;
    int64_t from = record.from, to = from;
    while (to < record.to && text->bytes[to] != '\n' && !is_comment(text, to, record.to))
        to++;
    while (from < to && is_space(text->bytes[from]))
        from++;
    while (from < to && is_space(text->bytes[to - 1]))
        to--;
    size_t length = to - from > MOST_SHOWN ? MOST_SHOWN : (size_t)(to - from);
    for (size_t i = 0; i < length; i++)
        shown[i] = shown_byte(text->bytes[(size_t)from + i]);
    if (to - from > MOST_SHOWN)
        memset(&shown[MOST_SHOWN - 3], '.', 3);
    shown[length] = '\0';
    return length;
}

double record_number(const struct text *text, const struct lastarunc_block *block, const char *name)
{
    struct lastarunc_record record;
    char digits[32] = "";
    size_t length = 0;
    if (!find_text(text, block, name, &record))
        return 0;
    int64_t at = record.from;
    while (at < record.to && (is_space(text->bytes[at]) || is_comment(text, at, record.to))) {
        if (is_comment(text, at, record.to))
            while (at < record.to && text->bytes[at] != '\n')
                at++;
        else
            at++;
    }
    while (at < record.to && length + 1 < sizeof digits && !is_space(text->bytes[at]) && text->bytes[at] != '$')
        digits[length++] = (char)text->bytes[at++];
    return strtod(digits, NULL);
}

void put_block(FILE *out, const struct text *text, const struct survey *survey, int64_t k)
{
    char title[MOST_SHOWN + 1];
    record_shown(text, &survey->blocks[k], "TITLE", title);
    fprintf(out, "block %" PRId64 " (%s): ", k + 1, *title ? title : "untitled");
}

void put_refusal(FILE *out, const char *name, const struct text *text, const struct fault *fault, const char *means,
                 const struct survey *survey, int64_t k)
{
    put_place(out, name, fault->line, fault->column);
    if (k >= 0)
        put_block(out, text, survey, k);
    fprintf(out, "refused %" PRId64 ": %s\n", fault->number, means);
    put_line(out, text, fault->place, fault->column);
}
