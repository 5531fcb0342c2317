/* The axes of a picture: round ticks and their labels. */
#include "picture.h"

#include <inttypes.h>
#include <string.h>

/* Ten to an exponent. */
static double power_of_ten(int exponent)
{
    double power = 1;
    for (int i = exponent < 0 ? -exponent : exponent; i > 0; i--)
        power *= 10;
    return exponent < 0 ? 1 / power : power;
}

/* The largest exponent whose power of ten is no more than a size above zero. */
static int exponent_of(double size)
{
    int exponent = 0;
    while (power_of_ten(exponent + 1) <= size)
        exponent++;
    while (power_of_ten(exponent) > size)
        exponent--;
    return exponent;
}

/* The largest whole number that is no more than a number, or hardly more. */
static int64_t whole_below(double x)
{
    double near = x + 1e-6;
    int64_t whole = (int64_t)near;
    return (double)whole > near ? whole - 1 : whole;
}

/* Chooses the step between ticks, 1, 2 or 5 times a power of ten, and the power by which labels are divided. */
static void choose_step(struct axis *axis, int most)
{
    static const int64_t digits[] = {1, 2, 5};
    double span = axis->to > axis->from ? axis->to - axis->from : axis->from - axis->to;
    double largest = axis->to > -axis->to ? axis->to : -axis->to;
    double other = axis->from > -axis->from ? axis->from : -axis->from;
    int exponent = exponent_of(span / most), i = 0;
    while (i < 3 && (double)digits[i] * power_of_ten(exponent) * most < span)
        i++;
    axis->digit = digits[i % 3];
    axis->exponent = exponent + i / 3;
    int size = exponent_of(largest > other ? largest : other);
    axis->common = size >= 6 || size < -3 ? (size >= 0 ? size / 3 : (size - 2) / 3) * 3 : 0;
}

void choose_ticks(struct axis *axis, int most)
{
    choose_step(axis, most);
    double step = tick_value(axis, 1), from = axis->from / step, to = axis->to / step;
    axis->low = -whole_below(from < to ? -from : -to);
    axis->high = whole_below(from < to ? to : from);
}

double tick_value(const struct axis *axis, int64_t k)
{
    double power = power_of_ten(axis->exponent < 0 ? -axis->exponent : axis->exponent);
    double units = (double)(k * axis->digit);
    return axis->exponent < 0 ? units / power : units * power;
}

double place_on(const struct axis *axis, double value)
{
    return axis->begin + (value - axis->from) / (axis->to - axis->from) * (axis->end - axis->begin);
}

void tick_label(const struct axis *axis, int64_t k, char label[LABEL])
{
    int64_t units = k < 0 ? -k * axis->digit : k * axis->digit;
    int places = k == 0 ? 0 : axis->common - axis->exponent;
    char digits[LABEL / 2];
    for (; places < 0; places++)
        units *= 10;
    int length = snprintf(digits, sizeof digits, "%0*" PRId64, places + 1, units);
    snprintf(label, LABEL, "%s%.*s%s%s", k < 0 ? "-" : "", length - places, digits, places ? "." : "",
             &digits[length - places]);
}

int longest_label(const struct axis *axis)
{
    char label[LABEL];
    int longest = 0;
    for (int64_t k = axis->low; k <= axis->high; k++) {
        tick_label(axis, k, label);
        if ((int)strlen(label) > longest)
            longest = (int)strlen(label);
    }
    return longest;
}
