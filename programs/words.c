/* Words in a picture: they are never cut off, but broken into rows. */
#include "picture.h"

#include <string.h>

double width_of(const char *text, size_t length)
{
    double width = 0;
    for (size_t i = 0; i < length; i++) {
        char c = text[i];
        if (strchr("WMm@%w", c))
            width += 1;
        else if (strchr(" .,:;'|!()[]ijltfrI", c))
            width += 0.42;
        else
            width += c >= 'A' && c <= 'Z' ? 0.76 : 0.64;
    }
    return width;
}

void put_escaped(FILE *out, const char *text, size_t length)
{
    for (size_t i = 0; i < length; i++) {
        char c = text[i];
        fputs(c == '&' ? "&amp;" : c == '<' ? "&lt;" : c == '>' ? "&gt;" : c == '"' ? "&quot;" : "", out);
        if (!strchr("&<>\"", c))
            putc(c, out);
    }
}

/* How many bytes of a text make its next row: up to its last blank that fits, or as many as fit. */
static size_t row_length(const char *text, double size, double width)
{
    size_t length = strlen(text), fits = 0, blank = 0;
    while (fits < length && size * width_of(text, fits + 1) <= width) {
        fits++;
        if (fits < length && text[fits] == ' ')
            blank = fits;
    }
    if (fits == length)
        return length;
    return blank ? blank : fits ? fits : 1;
}

double put_rows(FILE *out, const char *text, double x, double y, double size, double width, const char *style)
{
    while (*text) {
        size_t length = row_length(text, size, width);
        y += 1.35 * size;
        if (out) {
            fprintf(out, "<text x=\"%g\" y=\"%.1f\" font-size=\"%g\" %s>", x, y, size, style);
            put_escaped(out, text, length);
            fprintf(out, "</text>\n");
        }
        text += length;
        text += strspn(text, " ");
    }
    return y;
}
