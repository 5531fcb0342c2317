/* Reading a text whole, and ending what is written. */
#include "programs.h"

#include <errno.h>
#include <stdlib.h>
#include <string.h>
#include <sys/stat.h>
#include <unistd.h>

/* Says on standard error what is wrong with a file, after all that was printed before. */
static int complain(const char *name, const char *words)
{
    fflush(stdout);
    put_name(stderr, name);
    fprintf(stderr, ": %s\n", words);
    return 0;
}

/* Opens a file for reading; null, after a word, if it cannot be read. */
static FILE *open_text(const char *name)
{
    struct stat kind;
    if (!strcmp(name, "-")) {
        if (isatty(STDIN_FILENO))
            fprintf(stderr, "reading standard input, up to Ctrl-D\n");
        return stdin;
    }
    FILE *in = fopen(name, "rb");
    if (!in) {
        complain(name, strerror(errno));
        return NULL;
    }
    if (!fstat(fileno(in), &kind) && S_ISDIR(kind.st_mode)) {
        complain(name, "is a folder, not a file");
        fclose(in);
        return NULL;
    }
    return in;
}

int read_text(const char *name, size_t most, struct text *text)
{
    FILE *in = open_text(name);
    if (!in)
        return 0;
    text->bytes = malloc(most);
    if (!text->bytes) {
        fprintf(stderr, "lastarunc: there is no memory\n");
        exit(SOME_REFUSED);
    }
    text->length = fread(text->bytes, 1, most, in);
    int failed = ferror(in) ? errno : 0;
    if (in != stdin)
        fclose(in);
    if (!failed)
        return 1;
    free(text->bytes);
    return complain(name, strerror(failed));
}

int end_output(int status)
{
    if (!ferror(stdout) && !fflush(stdout))
        return status;
    fprintf(stderr, "lastarunc: standard output: %s\n", strerror(errno));
    return SOME_REFUSED;
}
