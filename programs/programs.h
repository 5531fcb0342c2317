/*
 * What the programs of the command share: texts that are read whole, what is shown of them, refusals and their words,
 * and the data blocks of a file.
 */
#ifndef LASTARUNC_PROGRAMS_H
#define LASTARUNC_PROGRAMS_H

#include "lastarunc.h"

#include <stdio.h>

/* How a program ends: all was accepted; something was refused, or could not be read or written; it was used wrongly. */
enum { ALL_ACCEPTED = 0, SOME_REFUSED = 1, WRONG_USE = 2 };

/* A text that was read whole. */
struct text {
    uint8_t *bytes;
    size_t length;
};

/* What is wrong, and where: number, place, line and column of a reader's refusal. */
struct fault {
    int64_t number, place, line, column;
};

/* The data blocks of a file, simple or compound. */
struct survey {
    struct lastarunc_blocks found;
    struct lastarunc_block *blocks;
};

/* Most characters that are shown of a record, its end and what stands for the rest counted. */
enum { MOST_SHOWN = 400 };

/* The commands: the arguments, from the command's own name on, and how the program ends. */
int check_command(int count, char **arguments);
int plot_command(int count, char **arguments);
int write_command(int count, char **arguments);

/* input.c: reads a text, of which `most` bytes at most; `-` is standard input. 0, after a word, if that fails. */
int read_text(const char *name, size_t most, struct text *text);

/* input.c: ends standard output; how the program ends, which is SOME_REFUSED, after a word, if it was not written. */
int end_output(int status);

/* shown.c: a byte as it is shown: what is not printed in ASCII is a point. */
char shown_byte(uint8_t byte);

/* shown.c: prints the name of a file, without its control characters. */
void put_name(FILE *out, const char *name);

/* shown.c: prints thousandths as a decimal with no needless zero. */
void put_thousandths(FILE *out, int64_t x);

/* shown.c: prints the line of a place, as much as fits 80 columns, and a caret under the place. */
void put_line(FILE *out, const struct text *text, int64_t place, int64_t column);

/* shown.c: where a text is at fault, as editors understand it: `NAME:LINE:COLUMN: `. */
void put_place(FILE *out, const char *name, int64_t line, int64_t column);

/* refusals.c: what a reader's refusal means, of a simple file or of a data block, and of a compound file. */
const char *meaning(int64_t number);
const char *compound_meaning(int64_t number);

/* refusals.c: what a writer's refusal means. */
const char *written_meaning(int64_t number);

/* blocks.c: surveys a file. 0, and what is wrong with the whole file and what that means, if it is refused. */
int survey_file(const struct text *text, struct survey *survey, struct fault *fault, const char **means);

/* blocks.c: gives back what a survey holds. */
void end_survey(struct survey *survey);

/* blocks.c: reads data block k, from 0, of a file that was surveyed. 0, and what is wrong, if it is refused. */
int read_data_block(const struct text *text, const struct survey *survey, int64_t k, int32_t *ordinates,
                    struct lastarunc_file *table, struct fault *fault);

/* blocks.c: the first line of a block's record as it is shown, without comment and blanks around; its length. */
size_t record_shown(const struct text *text, const struct lastarunc_block *block, const char *name,
                    char shown[MOST_SHOWN + 1]);

/* blocks.c: the number in a block's record. */
double record_number(const struct text *text, const struct lastarunc_block *block, const char *name);

/* blocks.c: prints `block 3 (TITLE): `. */
void put_block(FILE *out, const struct text *text, const struct survey *survey, int64_t k);

/* blocks.c: prints a refusal with its line and caret; of data block k of a compound file, if k is not negative. */
void put_refusal(FILE *out, const char *name, const struct text *text, const struct fault *fault, const char *means,
                 const struct survey *survey, int64_t k);

#endif
