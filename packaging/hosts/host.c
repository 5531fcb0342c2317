/* A host in C as its programmer writes it: reads a table and prints its ordinates, and then where another is refused. */
#include <lastarunc.h>
#include <stdio.h>
#include <string.h>

static void read_body(const char *body)
{
    int32_t y[4];
    struct lastarunc_table t;
    if (lastarunc_read_table(0, 3000, 4, (const uint8_t *)body, strlen(body), y, 4, &t)) {
        printf("%d:%d: refused %d\n", (int)t.line, (int)t.column, (int)t.refused);
        return;
    }
    for (int i = 0; i < t.points; i++)
        y[i] == LASTARUNC_MISSING ? puts("?") : printf("%d\n", y[i]);
}

int main(void)
{
    read_body("0A%?B");
    read_body("0A%?J");
    return 0;
}
