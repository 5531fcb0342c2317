/* A spectrum as a picture in SVG: axes, a broken line, and a band wherever points are missing. */
#include "picture.h"

#include "lastarunc.h"

#include <stdlib.h>
#include <string.h>

/* Measures: the picture's width, the line's height, the edge around it, and the narrowest band. */
static const double WIDTH = 900, HEIGHT = 330, EDGE = 20, BAND = 2;

/* Measures of words: the size of small ones, how wide a digit of these is, and how much wider bold letters are. */
static const double SMALL = 12, DIGIT = 7.4, BOLD = 1.15;

/* Most columns that points are drawn in: two for each unit of the picture's width are more than anyone sees. */
enum { MOST_COLUMNS = 1600 };

/* So many points at most are each drawn as a dot, too. */
enum { DOTTED = 100 };

/* What is drawn, and where. */
struct picture {
    FILE *out;
    const struct spectrum *spectrum;
    struct axis x, y;
    size_t missing;
};

/* Is this point missing? */
static int is_missing(const struct picture *picture, size_t i)
{
    return picture->spectrum->ordinates[i] == LASTARUNC_MISSING;
}

/* Where the point with this number, or one between two numbers, stands from left to right. */
static double across(const struct picture *picture, double i)
{
    const struct axis *x = &picture->x;
    size_t points = picture->spectrum->points;
    double share = points == 1 ? 0.5 + i : i / (double)(points - 1);
    share = share < 0 ? 0 : share > 1 ? 1 : share;
    return x->begin + share * (x->end - x->begin);
}

/* Prints a place with one digit after the point, if that is needed. */
static void put_place_at(FILE *out, double at)
{
    char digits[32];
    size_t length = (size_t)snprintf(digits, sizeof digits, "%.1f", at);
    if (!strcmp(&digits[length - 2], ".0"))
        digits[length - 2] = '\0';
    fputs(digits, out);
}

/* Prints where a point stands, after a letter. */
static void put_point(const struct picture *picture, char letter, size_t i)
{
    const struct spectrum *spectrum = picture->spectrum;
    putc(letter, picture->out);
    put_place_at(picture->out, across(picture, (double)i));
    putc(',', picture->out);
    put_place_at(picture->out, place_on(&picture->y, spectrum->yfactor * spectrum->ordinates[i]));
}

/* The column of a point; columns have the same number of points, but for the last. */
static size_t column_of(const struct picture *picture, size_t i)
{
    return i / ((picture->spectrum->points + MOST_COLUMNS - 1) / MOST_COLUMNS);
}

/* The end of a run of points that are all missing or all there: the next point's number. */
static size_t run_end(const struct picture *picture, size_t from)
{
    size_t to = from;
    while (to < picture->spectrum->points && is_missing(picture, to) == is_missing(picture, from))
        to++;
    return to;
}

/* The lowest and the highest of the points from one up to another that are there, in the order in which they stand. */
static int extremes(const struct picture *picture, size_t from, size_t to, size_t found[2])
{
    const int32_t *y = picture->spectrum->ordinates;
    size_t lowest = to, highest = to;
    for (size_t i = from; i < to; i++) {
        if (is_missing(picture, i))
            continue;
        if (lowest == to || y[i] < y[lowest])
            lowest = i;
        if (highest == to || y[i] > y[highest])
            highest = i;
    }
    found[0] = lowest < highest ? lowest : highest;
    found[1] = lowest < highest ? highest : lowest;
    return lowest == to ? 0 : lowest == highest ? 1 : 2;
}

/* Draws the line of a run of points: its first and last point, and the extremes of each column. */
static void put_run(const struct picture *picture, size_t from, size_t to)
{
    put_point(picture, 'M', from);
    size_t said = from, at = from;
    while (at < to) {
        size_t end = at, found[2];
        while (end < to && column_of(picture, end) == column_of(picture, at))
            end++;
        int count = extremes(picture, at, end, found);
        for (int i = 0; i < count; i++)
            if (found[i] > said)
                put_point(picture, 'L', said = found[i]);
        at = end;
    }
    if (said < to - 1)
        put_point(picture, 'L', to - 1);
}

/* Draws the line, broken where points are missing. Runs within a column are drawn as dots. */
static void put_line_of_points(const struct picture *picture)
{
    size_t points = picture->spectrum->points;
    fputs("<path id=\"line\" fill=\"none\" stroke=\"#14508c\" stroke-width=\"1.3\" stroke-linejoin=\"round\" "
          "stroke-linecap=\"round\" d=\"",
          picture->out);
    for (size_t from = 0, to; from < points; from = to) {
        to = run_end(picture, from);
        if (!is_missing(picture, from) && column_of(picture, from) != column_of(picture, to - 1))
            put_run(picture, from, to);
    }
    fputs("\"/>\n", picture->out);
}

/* Does the run that a point is in lie within one column? */
static int is_alone(const struct picture *picture, size_t i)
{
    size_t from = i, to = i, column = column_of(picture, i), last = picture->spectrum->points - 1;
    while (from > 0 && column_of(picture, from) == column && !is_missing(picture, from - 1))
        from--;
    while (to < last && column_of(picture, to) == column && !is_missing(picture, to + 1))
        to++;
    return column_of(picture, from) == column && column_of(picture, to) == column;
}

/* Draws a dot for the lowest and the highest point of each column that stand alone; for every point of a few. */
static void put_dots(const struct picture *picture)
{
    size_t points = picture->spectrum->points, end;
    const int32_t *y = picture->spectrum->ordinates;
    fputs("<path id=\"dots\" fill=\"none\" stroke=\"#14508c\" stroke-width=\"4\" stroke-linecap=\"round\" d=\"",
          picture->out);
    for (size_t at = 0; at < points; at = end) {
        size_t lowest = points, highest = points;
        for (end = at; end < points && column_of(picture, end) == column_of(picture, at); end++) {
            if (is_missing(picture, end) || (points > DOTTED && !is_alone(picture, end)))
                continue;
            lowest = lowest == points || y[end] < y[lowest] ? end : lowest;
            highest = highest == points || y[end] > y[highest] ? end : highest;
        }
        if (lowest < points)
            put_point(picture, 'M', lowest), fputs("h0", picture->out);
        if (highest != lowest)
            put_point(picture, 'M', highest), fputs("h0", picture->out);
    }
    fputs("\"/>\n", picture->out);
}

/* A band from one place to another. */
static void put_band(const struct picture *picture, double left, double right)
{
    fputs("<path d=\"M", picture->out);
    put_place_at(picture->out, left);
    fprintf(picture->out, ",%.1fH", picture->y.end);
    put_place_at(picture->out, right);
    fprintf(picture->out, "V%.1fH", picture->y.begin);
    put_place_at(picture->out, left);
    fputs("z\"/>\n", picture->out);
}

/* Draws a band wherever points are missing, half a spacing to each side, and never too narrow to be seen. Bands that
 * touch are one. */
static void put_bands(const struct picture *picture)
{
    double left = 0, right = -1;
    fputs("<g id=\"missing\" fill=\"#ffd9a0\">\n", picture->out);
    for (size_t from = 0, to; from < picture->spectrum->points; from = to) {
        to = run_end(picture, from);
        if (!is_missing(picture, from))
            continue;
        double begin = across(picture, (double)from - 0.5), end = across(picture, (double)to - 0.5);
        double wanting = BAND - (end - begin);
        if (wanting > 0) {
            begin -= wanting / 2;
            end += wanting / 2;
        }
        if (right >= begin) {
            right = end;
            continue;
        }
        if (right > left)
            put_band(picture, left, right);
        left = begin;
        right = end;
    }
    if (right > left)
        put_band(picture, left, right);
    fputs("</g>\n", picture->out);
}

/* What an axis is called: its units, or a word, and the power of ten that its labels are divided by. */
static void put_axis_title(const struct picture *picture, const struct axis *axis, const char *units, const char *where,
                           double room)
{
    double width = SMALL * 1.1 * (width_of(units, strlen(units)) + 9);
    fprintf(picture->out, "<text %s text-anchor=\"middle\" font-size=\"%.1f\">", where,
            width > room ? SMALL * 1.1 * room / width : SMALL * 1.1);
    put_escaped(picture->out, units, strlen(units));
    if (axis->common)
        fprintf(picture->out,
                " (labels &#215; 10<tspan dy=\"-5\" font-size=\"%g\">%d</tspan><tspan dy=\"5\">)</tspan>", SMALL * 0.75,
                axis->common);
    fputs("</text>\n", picture->out);
}

/* Draws the horizontal axis. */
static void put_x_axis(const struct picture *picture)
{
    const struct axis *x = &picture->x;
    double foot = picture->y.begin;
    char label[LABEL], where[64];
    for (int64_t k = x->low; k <= x->high; k++) {
        double at = place_on(x, tick_value(x, k));
        tick_label(x, k, label);
        fprintf(picture->out, "<path d=\"M%.1f,%.1fv5\" stroke=\"#444\"/>", at, foot);
        fprintf(picture->out, "<text x=\"%.1f\" y=\"%.1f\" text-anchor=\"middle\">%s</text>\n", at, foot + 19, label);
    }
    fprintf(picture->out, "<path d=\"M%.1f,%.1fH%.1f\" stroke=\"#444\"/>\n", x->begin, foot, x->end);
    snprintf(where, sizeof where, "x=\"%.1f\" y=\"%.1f\"", (x->begin + x->end) / 2, foot + 42);
    put_axis_title(picture, x, picture->spectrum->xunits, where, x->end - x->begin);
}

/* Draws the vertical axis, with lines across; where all points are missing there is nothing to be read from it. */
static void put_y_axis(const struct picture *picture)
{
    const struct axis *x = &picture->x, *y = &picture->y;
    char label[LABEL], where[96];
    for (int64_t k = y->low; k <= y->high && picture->missing < picture->spectrum->points; k++) {
        double at = place_on(y, tick_value(y, k));
        tick_label(y, k, label);
        fprintf(picture->out, "<path d=\"M%.1f,%.1fH%.1f\" stroke=\"#e4e4e4\"/>", x->begin, at, x->end);
        fprintf(picture->out, "<text x=\"%.1f\" y=\"%.1f\" text-anchor=\"end\">%s</text>\n", x->begin - 8, at + 4,
                label);
    }
    snprintf(where, sizeof where, "transform=\"translate(%g %.1f) rotate(-90)\"", EDGE + 6, (y->begin + y->end) / 2);
    put_axis_title(picture, y, picture->spectrum->yunits, where, HEIGHT);
}

/* The ends of the vertical axis: those of the ordinates that are there, and zero if it is near. */
static void choose_y(struct picture *picture)
{
    const struct spectrum *spectrum = picture->spectrum;
    size_t found[2];
    double lowest = 0, highest = 0;
    if (extremes(picture, 0, spectrum->points, found)) {
        int32_t one = spectrum->ordinates[found[0]], other = spectrum->ordinates[found[1]];
        lowest = spectrum->yfactor * (one < other ? one : other);
        highest = spectrum->yfactor * (one < other ? other : one);
    }
    if (lowest > 0 && lowest <= highest / 2)
        lowest = 0;
    if (highest < 0 && highest >= lowest / 2)
        highest = 0;
    double margin = highest > lowest ? 0.03 * (highest - lowest) : spectrum->yfactor;
    picture->y.from = lowest == 0 && highest > 0 ? 0 : lowest - margin;
    picture->y.to = highest == 0 && lowest < 0 ? 0 : highest + margin;
    choose_ticks(&picture->y, 8);
}

/* The ends of the horizontal axis: the abscissas at both ends; a single one stands in the middle. */
static void choose_x(struct picture *picture)
{
    const struct spectrum *spectrum = picture->spectrum;
    double size = spectrum->first < 0 ? -spectrum->first : spectrum->first;
    double margin = spectrum->first != spectrum->last ? 0 : size > 0 ? size / 4 : 1;
    picture->x.from = spectrum->first - margin;
    picture->x.to = spectrum->last + margin;
    choose_ticks(&picture->x, 7);
}

/* Lays out the words above the line: title, caption and, if points are missing, how many; the height after them. Prints
 * them, unless only the height is asked for. */
static double put_head(const struct picture *picture, FILE *out)
{
    double width = WIDTH - 2 * EDGE, y = EDGE - 6;
    char counted[64];
    y = put_rows(out, picture->spectrum->title, EDGE, y, 17, width / BOLD, "font-weight=\"bold\"");
    y = put_rows(out, picture->spectrum->caption, EDGE, y + 4, SMALL, width, "fill=\"#555\"");
    if (!picture->missing)
        return y;
    snprintf(counted, sizeof counted, "%zu point%s missing", picture->missing, picture->missing == 1 ? "" : "s");
    if (out)
        fprintf(out, "<path fill=\"#ffd9a0\" stroke=\"#d98000\" d=\"M%g,%.1fh14v10h-14z\"/>\n", EDGE + 0.5, y + 10.5);
    return put_rows(out, counted, EDGE + 22, y + 4, SMALL, width, "fill=\"#a05a00\"");
}

/* Where everything stands. */
static void lay_out(struct picture *picture)
{
    double head = put_head(picture, NULL) + 20;
    double half_label = DIGIT * longest_label(&picture->x) / 2;
    picture->y.end = head;
    picture->y.begin = head + HEIGHT;
    picture->x.begin = EDGE + 26 + DIGIT * longest_label(&picture->y);
    picture->x.end = WIDTH - (half_label > EDGE ? half_label : EDGE);
    if (picture->x.begin < half_label)
        picture->x.begin = half_label;
}

void draw(FILE *out, const struct spectrum *spectrum)
{
    struct picture picture = {.out = out, .spectrum = spectrum};
    for (size_t i = 0; i < spectrum->points; i++)
        picture.missing += is_missing(&picture, i) ? 1 : 0;
    choose_x(&picture);
    choose_y(&picture);
    lay_out(&picture);
    double height = picture.y.begin + 56;
    fputs("<?xml version=\"1.0\" encoding=\"UTF-8\"?>\n<svg xmlns=\"http://www.w3.org/2000/svg\" ", out);
    fprintf(out, "width=\"%g\" height=\"%.0f\" viewBox=\"0 0 %g %.0f\" ", WIDTH, height, WIDTH, height);
    fprintf(out, "font-family=\"Helvetica, Arial, sans-serif\" font-size=\"%g\">\n", SMALL);
    fputs("<title>", out);
    put_escaped(out, spectrum->title, strlen(spectrum->title));
    fputs("</title>\n<rect width=\"100%\" height=\"100%\" fill=\"#fff\"/>\n", out);
    put_head(&picture, out);
    put_bands(&picture);
    put_y_axis(&picture);
    put_x_axis(&picture);
    put_line_of_points(&picture);
    put_dots(&picture);
    fputs("</svg>\n", out);
}
