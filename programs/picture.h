/* A spectrum as a picture in SVG. */
#ifndef LASTARUNC_PICTURE_H
#define LASTARUNC_PICTURE_H

#include <stdint.h>
#include <stdio.h>

/* What is drawn: words as they are shown, the abscissas at both ends, ordinates and their factor. */
struct spectrum {
    const char *title, *caption, *xunits, *yunits;
    double first, last, yfactor;
    const int32_t *ordinates;
    size_t points;
};

/* An axis: the values at its ends, the places of these in the picture, and its ticks. */
struct axis {
    double from, to, begin, end;
    /* Ticks stand at digit times ten to the exponent, times every whole number from low to high. */
    int64_t low, high, digit;
    int exponent;
    /* Labels are divided by ten to this. */
    int common;
};

/* Most bytes of a label, its end counted. */
enum { LABEL = 64 };

/* axis.c: chooses so many ticks at most between an axis's ends. */
void choose_ticks(struct axis *axis, int most);

/* axis.c: the value of tick k, its place in the picture, and its label. */
double tick_value(const struct axis *axis, int64_t k);
double place_on(const struct axis *axis, double value);
void tick_label(const struct axis *axis, int64_t k, char label[LABEL]);

/* axis.c: the length of the longest label. */
int longest_label(const struct axis *axis);

/* words.c: about how wide a text is, at most, in a font of size one. */
double width_of(const char *text, size_t length);

/* words.c: prints a text in XML. */
void put_escaped(FILE *out, const char *text, size_t length);

/* words.c: prints a text from a height down, in as many rows as it needs for a width; the height after it. Prints
 * nothing if `out` is null. */
double put_rows(FILE *out, const char *text, double x, double y, double size, double width, const char *style);

/* picture.c: draws a spectrum. */
void draw(FILE *out, const struct spectrum *spectrum);

#endif
