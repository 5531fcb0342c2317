/* What is shown of texts and numbers: never a byte of a file as it is, since a terminal might obey it. */
#include "programs.h"

#include <inttypes.h>
#include <string.h>

/* As many bytes of a line are shown. */
enum { COLUMNS = 80 };

char shown_byte(uint8_t byte)
{
    return byte < 32 || byte > 126 ? '.' : (char)byte;
}

void put_name(FILE *out, const char *name)
{
    if (!strcmp(name, "-"))
        name = "standard input";
    for (const char *at = name; *at; at++)
        putc((unsigned char)*at < 32 || *at == 127 ? '.' : *at, out);
}

void put_thousandths(FILE *out, int64_t x)
{
    uint64_t size = x < 0 ? -(uint64_t)x : (uint64_t)x;
    int places = 3;
    unsigned rest = (unsigned)(size % 1000);
    while (places > 0 && rest % 10 == 0) {
        rest /= 10;
        places--;
    }
    fprintf(out, "%s%" PRIu64, x < 0 ? "-" : "", size / 1000);
    if (places > 0)
        fprintf(out, ".%0*u", places, rest);
}

/* Does a line end here: LF, CR LF, or the text? */
static int is_line_end(const struct text *text, size_t at)
{
    if (at >= text->length || text->bytes[at] == '\n')
        return 1;
    return text->bytes[at] == '\r' && at + 1 < text->length && text->bytes[at + 1] == '\n';
}

void put_line(FILE *out, const struct text *text, int64_t place, int64_t column)
{
    int64_t before = column > COLUMNS ? COLUMNS - 1 : column - 1;
    if (before < 0 || before > place)
        return;
    size_t from = (size_t)(place - before);
    for (size_t at = from; at < from + COLUMNS && !is_line_end(text, at); at++)
        putc(shown_byte(text->bytes[at]), out);
    fprintf(out, "\n%*s^\n", (int)before, "");
}

void put_place(FILE *out, const char *name, int64_t line, int64_t column)
{
    put_name(out, name);
    fprintf(out, ":%" PRId64 ":%" PRId64 ": ", line, column);
}
