/* The command: `lastarunc check`, `plot` and `write`, over the proved library. */
#include "generated.h"
#include "programs.h"

#include <string.h>

/* A command, and what getopt calls it. */
struct command {
    const char *name;
    char *called;
    int (*run)(int count, char **arguments);
};

static const struct command commands[] = {
    {"check", "lastarunc check", check_command},
    {"plot", "lastarunc plot", plot_command},
    {"write", "lastarunc write", write_command},
};

int main(int argc, char **argv)
{
    const char *word = argc > 1 ? argv[1] : "";
    if (argc > 1 && argc <= 3 && !strcmp(argv[argc - 1], "--version"))
        return puts(VERSION), end_output(ALL_ACCEPTED);
    for (size_t i = 0; i < sizeof commands / sizeof *commands; i++)
        if (!strcmp(word, commands[i].name)) {
            argv[1] = commands[i].called;
            return commands[i].run(argc - 1, &argv[1]);
        }
    if (!strcmp(word, "--help") || !strcmp(word, "-h"))
        return fputs(HELP_lastarunc, stdout), end_output(ALL_ACCEPTED);
    fprintf(stderr, "no such command: '%s'; `lastarunc --help` says which there are\n", word);
    return WRONG_USE;
}
