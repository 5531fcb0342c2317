/*
 * The spectrum of docs/ENGINE.md, read by both engines: the ordinates, and the refusal after one digit was damaged.
 */
#include "lastarunc.h"

#include <inttypes.h>
#include <stdio.h>
#include <string.h>

enum { POINTS = 8, FIRST = 0, LAST = 7000 };
static const char right[] = "0A0J5%\n2B5kT?C\n7A\n";
static const char damaged[] = "0A0J4%\n2B5kT?C\n7A\n";

/* Prints what was read, or where the table is refused; a refusal stores nothing. */
static void print_answer(const char *engine, const struct lastarunc_table *t, const int32_t *y)
{
    printf("%s:", engine);
    if (t->refused)
        printf(" refused %" PRId64 " at byte %" PRId64 ", line %" PRId64 ", column %" PRId64, t->refused, t->place,
               t->line, t->column);
    for (int64_t i = 0; i < t->points; i++)
        if (y[i] == LASTARUNC_MISSING)
            printf(" ?");
        else
            printf(" %" PRId32, y[i]);
    printf("\n");
}

/* Reads a body by both engines. */
static void read_both(const char *body)
{
    int32_t y[POINTS];
    struct lastarunc_table t;
    fputs(body, stdout);
    lastarunc_read_plain(FIRST, LAST, POINTS, (const uint8_t *)body, strlen(body), y, POINTS, &t);
    print_answer("plain", &t, y);
    lastarunc_read_table(FIRST, LAST, POINTS, (const uint8_t *)body, strlen(body), y, POINTS, &t);
    print_answer("first", &t, y);
}

int main(void)
{
    read_both(right);
    read_both(damaged);
    return 0;
}
