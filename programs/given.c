/* What is given to the writers as text: ordinates and decimals. */
#include "given.h"

#include <inttypes.h>
#include <stdlib.h>
#include <string.h>

/* The largest magnitude of an ordinate, and of a mantissa. */
enum { LARGEST_ORDINATE = INT32_MAX, LARGEST_MANTISSA = 999999999 };

/* A text of ordinates while it is read: how far, on which line, and what stood last. */
struct walk {
    const char *name;
    const struct text *text;
    size_t at, line_start;
    int64_t line;
    enum { LINE_START, AFTER_ORDINATE, AFTER_COMMA } last;
};

/* Says what is wrong at a place, with the line and a caret; 0. */
static int fault_at(const struct walk *walk, size_t place, const char *words)
{
    int64_t column = (int64_t)(place - walk->line_start) + 1;
    put_place(stderr, walk->name, walk->line, column);
    fprintf(stderr, "%s\n", words);
    put_line(stderr, walk->text, (int64_t)place, column);
    return 0;
}

/* Is this byte no part of an ordinate? */
static int is_between(uint8_t byte)
{
    return byte == ' ' || byte == '\t' || byte == '\r' || byte == '\n' || byte == ',';
}

/* An ordinate's word, from a place up to another: a whole number within its limits, or `?`. 0 if it is neither. */
static int ordinate_of(const uint8_t *word, const uint8_t *end, int32_t *ordinate)
{
    int64_t size = 0;
    int negative = *word == '-';
    if (end - word == 1 && *word == '?')
        return *ordinate = LASTARUNC_MISSING, 1;
    if (*word == '-' || *word == '+')
        word++;
    if (word == end)
        return 0;
    for (; word < end; word++) {
        if (*word < '0' || *word > '9')
            return 0;
        size = 10 * size + (*word - '0');
        if (size > LARGEST_ORDINATE)
            return 0;
    }
    *ordinate = (int32_t)(negative ? -size : size);
    return 1;
}

/* Goes over a byte between ordinates. 0, after a word, if an ordinate is wanting there. */
static int pass_between(struct walk *walk)
{
    static const char wanting[] = "no ordinate stands beside this comma on its line: write ? for a missing one";
    uint8_t byte = walk->text->bytes[walk->at];
    if (byte == ',' && walk->last != AFTER_ORDINATE)
        return fault_at(walk, walk->at, wanting);
    if (byte == '\n' && walk->last == AFTER_COMMA)
        return fault_at(walk, walk->at, wanting);
    walk->at++;
    if (byte == ',')
        walk->last = AFTER_COMMA;
    if (byte == '\n') {
        walk->last = LINE_START;
        walk->line++;
        walk->line_start = walk->at;
    }
    return 1;
}

/* Reads the ordinate that stands here. 0, after a word, if it is none, or one too many. */
static int take_ordinate(struct walk *walk, struct ordinates *ordinates)
{
    size_t from = walk->at, to = from;
    const uint8_t *bytes = walk->text->bytes;
    while (to < walk->text->length && !is_between(bytes[to]))
        to++;
    if (ordinates->count == LASTARUNC_MOST_POINTS)
        return fault_at(walk, from, "more than 65,536 ordinates");
    if (!ordinate_of(&bytes[from], &bytes[to], &ordinates->list[ordinates->count]))
        return fault_at(walk, from, "no ordinate: a whole number from -2147483647 to 2147483647, or ?, is wanted");
    ordinates->count++;
    walk->at = to;
    walk->last = AFTER_ORDINATE;
    return 1;
}

int read_ordinates(const char *name, const struct text *text, struct ordinates *ordinates)
{
    struct walk walk = {name, text, 0, 0, 1, LINE_START};
    ordinates->count = 0;
    while (walk.at < text->length) {
        if (is_between(text->bytes[walk.at]) ? !pass_between(&walk) : !take_ordinate(&walk, ordinates))
            return 0;
    }
    if (walk.last == AFTER_COMMA)
        return fault_at(&walk, walk.at, "no ordinate follows the last comma: write ? for a missing one");
    return 1;
}

/* An exponent as E5, E+05 or E-3 at the end of a word; 0 if it is none, or beyond any use. */
static int read_exponent(const char *word, int64_t *exponent)
{
    const char *digits = word[1] == '-' || word[1] == '+' ? word + 2 : word + 1;
    size_t length = strspn(digits, "0123456789");
    if (length == 0 || length > 4 || digits[length] != '\0')
        return 0;
    *exponent = strtol(word + 1, NULL, 10);
    return 1;
}

/* The digits of a decimal while they are read: how many, their number, and zeros at the end that it lacks yet. */
struct digits {
    int count;
    int64_t mantissa, zeros;
};

/* Reads one more digit. A mantissa that is too large stays so. */
static void add_digit(struct digits *digits, int digit)
{
    digits->count++;
    digits->zeros++;
    if (digit == 0)
        return;
    for (; digits->zeros > 0; digits->zeros--)
        if (digits->mantissa <= LARGEST_MANTISSA)
            digits->mantissa *= 10;
    digits->mantissa += digit;
}

const char *read_decimal(const char *word, struct lastarunc_decimal *decimal)
{
    struct digits digits = {0, 0, 0};
    int64_t after_point = 0, exponent = 0;
    int point = 0;
    const char *at = *word == '-' || *word == '+' ? word + 1 : word;
    for (; (*at >= '0' && *at <= '9') || (*at == '.' && !point); at++) {
        if (*at == '.') {
            point = 1;
        } else {
            add_digit(&digits, *at - '0');
            after_point += point;
        }
    }
    if (!digits.count || (*at == 'E' || *at == 'e' ? !read_exponent(at, &exponent) : *at != '\0'))
        return "is no decimal, as 0.1, -25 or 1.5E-3";
    if (digits.mantissa > LARGEST_MANTISSA)
        return "has over 9 digits";
    for (; digits.zeros > 0 && 10 * digits.mantissa <= LARGEST_MANTISSA; digits.zeros--)
        digits.mantissa *= 10;
    decimal->mantissa = *word == '-' ? -digits.mantissa : digits.mantissa;
    decimal->exponent = exponent - after_point + digits.zeros;
    return NULL;
}

const char *in_thousandths(const struct lastarunc_decimal *decimal, int64_t *thousandths)
{
    int64_t mantissa = decimal->mantissa, exponent = decimal->exponent + 3;
    for (; exponent < 0 && mantissa % 10 == 0 && mantissa; exponent++)
        mantissa /= 10;
    if (exponent < 0 && mantissa)
        return "has more than three places after the point";
    for (; exponent > 0 && mantissa; exponent--) {
        if (mantissa > LASTARUNC_LARGEST_ABSCISSA || mantissa < -LASTARUNC_LARGEST_ABSCISSA)
            break;
        mantissa *= 10;
    }
    *thousandths = mantissa;
    return NULL;
}

int first_times(int32_t ordinate, const struct lastarunc_decimal *factor, struct lastarunc_decimal *product)
{
    *product = (struct lastarunc_decimal){0, 0};
    if (ordinate == LASTARUNC_MISSING || ordinate == 0)
        return 1;
    *product = (struct lastarunc_decimal){ordinate * factor->mantissa, factor->exponent};
    while (product->mantissa % 10 == 0 && product->mantissa) {
        product->mantissa /= 10;
        product->exponent++;
    }
    return product->mantissa <= LARGEST_MANTISSA && product->mantissa >= -LARGEST_MANTISSA;
}
