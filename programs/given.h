/* What is given to the writers as text: ordinates and decimals. */
#ifndef LASTARUNC_GIVEN_H
#define LASTARUNC_GIVEN_H

#include "programs.h"

/* Ordinates that were read, as many as there are, up to one more than a table may have. */
struct ordinates {
    size_t count;
    int32_t list[LASTARUNC_MOST_POINTS + 1];
};

/* Reads the ordinates of a text. 0, after a word, if one is misspelled. */
int read_ordinates(const char *name, const struct text *text, struct ordinates *ordinates);

/* Reads a decimal exactly. Null, or what is wrong with it. */
const char *read_decimal(const char *word, struct lastarunc_decimal *decimal);

/* A decimal in whole thousandths. Null, or what is wrong with it. */
const char *in_thousandths(const struct lastarunc_decimal *decimal, int64_t *thousandths);

/* The first ordinate times a factor, or 0 if it is missing. 0 if that has over nine digits. */
int first_times(int32_t ordinate, const struct lastarunc_decimal *factor, struct lastarunc_decimal *product);

#endif
