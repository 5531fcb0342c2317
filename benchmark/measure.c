/*
 * Runs the library's functions, and those in C, on the bench's texts:
 *     measure FUNCTION TEXTS TIMES    runs one so many times; ./bench counts 2k times less k, so that all else cancels
 *     measure time TEXTS FUNCTION..   times each beside the others: nanoseconds a byte, least and median of 31
 *     measure size TEXTS              the bytes and the points
 *     measure store TEXTS FOLDER      stores the texts as FOLDER/0 .., and their ordinates as FOLDER/0.ordinates ..
 *     measure answer FILE             reads a file of at most 100 points, and prints its ordinates or why it is refused
 * TEXTS is (typical|quiet|noisy|file|compound)[-POINTS][.AFFN|.PAC|.SQZ], plain[-POINTS], labels-BYTES or blocks-BYTES;
 * *8 after it makes eight different ones, each taken in its turn, so that no processor learns one by heart.
 */
#include "c_table.h"
#include "lastarunc.h"
#include "tables.h"

#include <stdbool.h>
#include <stdio.h>
#include <stdlib.h>
#include <string.h>
#include <time.h>

enum { MOST_TURNS = 1024, ROUNDS = 31, MOST_FUNCTIONS = 16 };

/* What the functions are run on: tables, or files with the table that each has, and what they need. */
struct texts {
    size_t count;
    struct table *tables[MOST_TURNS]; /* none if the files are no files of one table */
    struct file files[MOST_TURNS];    /* none if only tables were asked for */
    struct file spool;                /* the files as a night's spool, once it is asked for */
    size_t bytes, points;             /* of all */
    int64_t refused;                  /* what the files are refused with */
    size_t room;                      /* of the text, as much as any table of these needs */
    int32_t *out;                     /* room for the ordinates of each */
    uint8_t *text;
};

/* The library's reader and writers with the signatures of those in C. */
static uint64_t read_library(int64_t first, int64_t last, size_t points, const uint8_t *body, size_t body_len,
                             int32_t *out, size_t out_len, uint64_t *place)
{
    struct lastarunc_table answer;
    int64_t refused = lastarunc_read_table(first, last, points, body, body_len, out, out_len, &answer);
    *place = (uint64_t)(refused ? answer.place : answer.points);
    return (uint64_t)refused;
}

static uint64_t read_plain(int64_t first, int64_t last, size_t points, const uint8_t *body, size_t body_len,
                           int32_t *out, size_t out_len, uint64_t *place)
{
    struct lastarunc_table answer;
    int64_t refused = lastarunc_read_plain(first, last, points, body, body_len, out, out_len, &answer);
    *place = (uint64_t)(refused ? answer.place : answer.points);
    return (uint64_t)refused;
}

static uint64_t write_library(uint64_t form, int64_t first, int64_t last, size_t points, const int32_t *ordinates,
                              size_t n, uint8_t *text, size_t room, uint64_t *length)
{
    struct lastarunc_text answer;
    int64_t refused = form == FORM_DIFDUP
        ? lastarunc_write_table(first, last, points, ordinates, n, text, room, &answer)
        : lastarunc_write_form(form, first, last, points, ordinates, n, text, room, &answer);
    *length = (uint64_t)answer.length;
    return (uint64_t)refused;
}

static uint64_t length_library(uint64_t form, int64_t first, int64_t last, size_t points, const int32_t *ordinates,
                               size_t n, uint8_t *text, size_t room, uint64_t *length)
{
    (void)text, (void)room;
    struct lastarunc_text answer;
    int64_t refused = lastarunc_text_length(form, first, last, points, ordinates, n, &answer);
    *length = (uint64_t)answer.length;
    return (uint64_t)refused;
}

/* A function of the bench. A writer is lent just the text's length, or as much as any text of so many points needs. */
struct function {
    const char *name;
    bool (*run)(const struct function *, const struct texts *); /* on each text in turn: are the answers right? */
    table_reader *read;
    form_writer *write;
    enum { JUST, ROOMY, NO_TEXT } lent;
};

/* Reads the tables. */
static bool run_reader(const struct function *f, const struct texts *texts)
{
    for (size_t k = 0; k < texts->count; k++) {
        const struct table *t = texts->tables[k];
        uint64_t place;
        if (f->read(t->first, t->last, t->points, t->body, t->length, texts->out, t->points, &place)
            || place != t->points)
            return false;
    }
    return true;
}

/* Writes the tables, or only measures them. */
static bool run_writer(const struct function *f, const struct texts *texts)
{
    for (size_t k = 0; k < texts->count; k++) {
        const struct table *t = texts->tables[k];
        uint64_t length;
        if (f->write(t->form, t->first, t->last, t->points, t->ordinates, t->points, texts->text,
                     f->lent == ROOMY ? texts->room : t->length, &length)
            || length != t->length)
            return false;
    }
    return true;
}

/* Reads the files. */
static bool run_file(const struct function *f, const struct texts *texts)
{
    (void)f;
    for (size_t k = 0; k < texts->count; k++) {
        const size_t wanted = texts->tables[k] ? texts->tables[k]->points : 1;
        struct lastarunc_file answer;
        if (lastarunc_read_file(texts->files[k].bytes, texts->files[k].length, texts->out, wanted, &answer)
            != texts->refused
            || (!answer.refused && (size_t)answer.points != wanted))
            return false;
    }
    return true;
}

/* Finds the data blocks of the files. */
static bool run_find(const struct function *f, const struct texts *texts)
{
    (void)f;
    for (size_t k = 0; k < texts->count; k++) {
        struct lastarunc_block blocks[COMPOUND_BLOCKS];
        struct lastarunc_blocks answer;
        if (lastarunc_find_blocks(texts->files[k].bytes, texts->files[k].length, blocks, 4 * COMPOUND_BLOCKS, &answer)
            || !answer.compound)
            return false;
    }
    return true;
}

/* Finds the data blocks of the files and reads each. */
static bool run_blocks(const struct function *f, const struct texts *texts)
{
    (void)f;
    const size_t wanted = texts->points / texts->count / COMPOUND_BLOCKS;
    for (size_t k = 0; k < texts->count; k++) {
        const struct file *file = &texts->files[k];
        struct lastarunc_block blocks[COMPOUND_BLOCKS];
        struct lastarunc_blocks found;
        struct lastarunc_file answer;
        if (lastarunc_find_blocks(file->bytes, file->length, blocks, 4 * COMPOUND_BLOCKS, &found)
            || found.blocks != COMPOUND_BLOCKS)
            return false;
        for (int b = 0; b < COMPOUND_BLOCKS; b++)
            if (lastarunc_read_block(file->bytes, file->length, &blocks[b], texts->out, wanted, &answer)
                || (size_t)answer.points != wanted)
                return false;
    }
    return true;
}

/* Reports a night's spool of the files. */
static bool run_report(const struct function *f, const struct texts *texts)
{
    (void)f;
    const size_t wanted = texts->tables[0] ? texts->tables[0]->points : 1;
    struct lastarunc_progress progress = {0};
    struct lastarunc_report report;
    while (lastarunc_next_report(texts->spool.bytes, texts->spool.length, texts->out, wanted, &progress, &report),
           !report.ended)
        if (report.refused != texts->refused)
            return false;
    return (size_t)progress.seen == texts->count && (size_t)progress.points == texts->points;
}

static const struct function functions[] = {
    {"read-library", run_reader, read_library, NULL, NO_TEXT},
    {"read-plain", run_reader, read_plain, NULL, NO_TEXT},
    {"read-two", run_reader, c_read_table, NULL, NO_TEXT},
    {"read-decode", run_reader, c_read_table_then_decode, NULL, NO_TEXT},
    {"read-one", run_reader, c_read_table_scratch, NULL, NO_TEXT},
    {"read-unchecked", run_reader, c_read_table_unchecked, NULL, NO_TEXT},
    {"write-library", run_writer, NULL, write_library, JUST},
    {"write-library-roomy", run_writer, NULL, write_library, ROOMY},
    {"write-two", run_writer, NULL, c_write_form, JUST},
    {"write-unchecked", run_writer, NULL, c_write_form_unchecked, JUST},
    {"length-library", run_writer, NULL, length_library, NO_TEXT},
    {"length-c", run_writer, NULL, c_text_length, NO_TEXT},
    {"file", run_file, NULL, NULL, NO_TEXT},
    {"find", run_find, NULL, NULL, NO_TEXT},
    {"blocks", run_blocks, NULL, NULL, NO_TEXT},
    {"report", run_report, NULL, NULL, NO_TEXT},
};

/* Ends the program: this is how it is used, or why it cannot go on. */
static void die(const char *why, const char *what)
{
    fprintf(stderr, "measure: %s %s\n", why, what);
    exit(2);
}

static const struct function *function_of(const char *name)
{
    for (size_t k = 0; k < sizeof functions / sizeof *functions; k++)
        if (!strcmp(functions[k].name, name))
            return &functions[k];
    die("there is no function", name);
    return NULL;
}

static void *memory(size_t n)
{
    void *m = malloc(n);
    if (!m)
        exit(2);
    return m;
}

static bool starts(const char *name, const char *kind)
{
    return !strncmp(name, kind, strlen(kind));
}

/* The files as a spool: each after 4A 44 and its length in three bytes. */
static struct file make_spool(const struct texts *texts)
{
    struct file spool = {0, memory(texts->bytes + 5 * texts->count)};
    for (size_t k = 0; k < texts->count; k++) {
        const size_t n = texts->files[k].length;
        const uint8_t mark[] = {0x4A, 0x44, (uint8_t)(n >> 16), (uint8_t)(n >> 8), (uint8_t)n};
        memcpy(spool.bytes + spool.length, mark, sizeof mark);
        memcpy(spool.bytes + spool.length + sizeof mark, texts->files[k].bytes, n);
        spool.length += sizeof mark + n;
    }
    return spool;
}

/* Makes the texts of this name, as many as stand after `*`, or one. */
static struct texts *make_texts(const char *words)
{
    struct texts *texts = memory(sizeof *texts);
    *texts = (struct texts){0};
    const char *star = strchr(words, '*');
    char name[64];
    snprintf(name, sizeof name, "%.*s", (int)(star ? star - words : (long)strlen(words)), words);
    texts->count = star ? strtoul(star + 1, NULL, 10) : 1;
    if (texts->count < 1 || texts->count > MOST_TURNS)
        die("there are no texts", words);
    size_t most = 1;
    for (size_t k = 0; k < texts->count; k++) {
        struct table *table = NULL;
        struct file *file = &texts->files[k];
        size_t points = 0;
        if (starts(name, "labels-")) {
            *file = make_labels(strtoul(name + 7, NULL, 10));
            texts->refused = 25; /* once all labels were compared: the records of a table are absent */
        } else if (starts(name, "blocks-")) {
            *file = make_blocks(strtoul(name + 7, NULL, 10));
        } else if (starts(name, "compound")) {
            *file = make_compound(name, COMPOUND_BLOCKS * k);
            points = COMPOUND_BLOCKS * make_file_table(name, 0)->points;
        } else {
            table = starts(name, "file") ? make_file_table(name, k) : make_table(name, k);
            if (!table)
                die("there are no texts", words);
            points = table->points;
            if (starts(name, "file"))
                *file = make_file(table);
        }
        texts->tables[k] = table;
        texts->bytes += file->length ? file->length : table->length;
        texts->points += points;
        most = points > most ? points : most;
    }
    if (texts->files[0].length)
        texts->spool = make_spool(texts);
    texts->room = LASTARUNC_TEXT_CEILING(most);
    texts->out = memory(most * sizeof *texts->out);
    texts->text = memory(texts->room);
    /* The bodies that all answers are compared with read back. */
    if (texts->tables[0] && !run_reader(function_of("read-two"), texts))
        die("read-two", "does not read the texts");
    return texts;
}

/* Runs a function so many times, the texts in turn, and ends the program if an answer is wrong. */
static void run(const struct function *f, struct texts *texts, long times)
{
    if ((f->read || f->write) && !texts->tables[0])
        die("there are no tables for", f->name);
    if (!f->read && !f->write && !texts->files[0].length)
        die("there are no files for", f->name);
    for (long i = 0; i < times; i++)
        if (!f->run(f, texts))
            die("a wrong answer of", f->name);
}

/* Looks at what a function gave for the last of the texts; ends the program if it is wrong. */
static void look(const struct function *f, const struct texts *texts)
{
    const struct table *last = texts->tables[texts->count - 1];
    if (f->read && memcmp(texts->out, last->ordinates, last->points * sizeof *texts->out))
        die("wrong ordinates of", f->name);
    if (f->write && f->lent != NO_TEXT && memcmp(texts->text, last->body, last->length))
        die("a wrong text of", f->name);
}

/* This process's own time so far, in nanoseconds: other work on the machine is not in it. */
static double now(void)
{
    struct timespec t;
    clock_gettime(CLOCK_PROCESS_CPUTIME_ID, &t);
    return 1e9 * (double)t.tv_sec + (double)t.tv_nsec;
}

static int ascending(const void *a, const void *b)
{
    return (*(const double *)a > *(const double *)b) - (*(const double *)a < *(const double *)b);
}

/* Times the functions: in each of 31 rounds each in its turn, as many times as take 30 milliseconds. */
static void time_functions(struct texts *texts, char **names, size_t count)
{
    const struct function *f[MOST_FUNCTIONS];
    double taken[MOST_FUNCTIONS][ROUNDS];
    long times[MOST_FUNCTIONS];
    if (count > MOST_FUNCTIONS)
        die("too many functions after", names[MOST_FUNCTIONS - 1]);
    for (size_t k = 0; k < count; k++) {
        f[k] = function_of(names[k]);
        run(f[k], texts, 1); /* so that its code and the texts are at hand */
        double before = now();
        run(f[k], texts, 1);
        times[k] = 1 + (long)(30e6 / (now() - before + 1));
    }
    for (int round = 0; round < ROUNDS; round++)
        for (size_t k = 0; k < count; k++) {
            double before = now();
            run(f[k], texts, times[k]);
            taken[k][round] = (now() - before) / (double)times[k] / (double)texts->bytes;
            look(f[k], texts);
        }
    for (size_t k = 0; k < count; k++) {
        qsort(taken[k], ROUNDS, sizeof *taken[k], ascending);
        printf("%s %.3f %.3f\n", names[k], taken[k][0], taken[k][ROUNDS / 2]);
    }
}

/* Opens FOLDER/K and an ending. */
static FILE *open_text(const char *folder, size_t k, const char *ending)
{
    char path[4096];
    snprintf(path, sizeof path, "%s/%zu%s", folder, k, ending);
    FILE *file = fopen(path, "wb");
    if (!file)
        die("cannot write", path);
    return file;
}

/* Stores the texts in a folder, and the ordinates of each, one on a line, `?` for a missing one. */
static void store(const struct texts *texts, const char *folder)
{
    for (size_t k = 0; k < texts->count; k++) {
        const struct table *t = texts->tables[k];
        if (!t)
            die("there are no tables to store in", folder);
        const struct file text = texts->files[k].length ? texts->files[k] : (struct file){t->length, t->body};
        FILE *file = open_text(folder, k, "");
        fwrite(text.bytes, 1, text.length, file);
        if (fclose(file))
            die("cannot write", folder);
        file = open_text(folder, k, ".ordinates");
        for (size_t i = 0; i < t->points; i++)
            if (t->ordinates[i] == LASTARUNC_MISSING)
                fprintf(file, "?\n");
            else
                fprintf(file, "%d\n", (int)t->ordinates[i]);
        if (fclose(file))
            die("cannot write", folder);
    }
}

/* Prints what the library answers for a file. */
static void answer(const char *path)
{
    static uint8_t bytes[LASTARUNC_MOST_BYTES];
    int32_t y[100];
    struct lastarunc_file answer;
    FILE *file = fopen(path, "rb");
    if (!file)
        die("cannot read", path);
    size_t length = fread(bytes, 1, sizeof bytes, file);
    fclose(file);
    if (lastarunc_read_file(bytes, length, y, 100, &answer)) {
        printf("refused %d, line %d, column %d\n", (int)answer.refused, (int)answer.line, (int)answer.column);
        return;
    }
    for (int i = 0; i < answer.points; i++)
        if (y[i] == LASTARUNC_MISSING)
            printf("%s?", i ? " " : "");
        else
            printf("%s%d", i ? " " : "", (int)y[i]);
    printf("\n");
}

int main(int argc, char **argv)
{
    if (argc == 3 && !strcmp(argv[1], "size")) {
        struct texts *texts = make_texts(argv[2]);
        printf("%zu %zu\n", texts->bytes, texts->points);
    } else if (argc == 4 && !strcmp(argv[1], "store")) {
        store(make_texts(argv[2]), argv[3]);
    } else if (argc == 3 && !strcmp(argv[1], "answer")) {
        answer(argv[2]);
    } else if (argc >= 4 && !strcmp(argv[1], "time")) {
        time_functions(make_texts(argv[2]), argv + 3, (size_t)argc - 3);
    } else if (argc == 4) {
        struct texts *texts = make_texts(argv[2]);
        run(function_of(argv[1]), texts, atol(argv[3]));
        look(function_of(argv[1]), texts);
    } else {
        die("FUNCTION TEXTS TIMES, time TEXTS FUNCTION.., size TEXTS, store TEXTS FOLDER or", "answer FILE");
    }
    return 0;
}
