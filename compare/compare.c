/*
 * Compares the library with the second reader: reads from standard input the stream of cases that `second cases` writes
 * (second/README.md), gives each case to the functions of include/lastarunc.h, and compares every field of the answer,
 * every entry of lent memory, and that what is only lent to be read is unaltered.
 *
 * -DCOMPARE_C compares the C reader and writer of benchmark/c_table.h instead, which have tables only, and no line and
 * column; -DREADER=NAME takes another reader of it.
 */
#include "lastarunc.h"

#include <inttypes.h>
#include <stdbool.h>
#include <stdio.h>
#include <stdlib.h>
#include <string.h>

enum { MOST_SHOWN = 10, MOST_NUMBERS = 101, GUARD = 16 };

/* What is compared, with the signatures of the library, and whether it has line and column. */
#ifndef COMPARE_C
#define read_table lastarunc_read_table
#define write_table lastarunc_write_table
#define write_form lastarunc_write_form
static const bool has_lines = true;
#else
#include "c_table.h"
#ifndef READER
#define READER c_read_table
#endif
static const bool has_lines = false;

static int64_t read_table(int64_t first, int64_t last, size_t points, const uint8_t *body, size_t body_len,
                          int32_t *out, size_t out_len, struct lastarunc_table *answer)
{
    uint64_t place, refused = READER(first, last, points, body, body_len, out, out_len, &place);
    *answer = (struct lastarunc_table){.refused = (int64_t)refused};
    *(refused ? &answer->place : &answer->points) = (int64_t)place;
    return answer->refused;
}

static int64_t write_table(int64_t first, int64_t last, size_t points, const int32_t *ordinates, size_t n,
                           uint8_t *text, size_t room, struct lastarunc_text *answer)
{
    uint64_t length, refused = c_write_table(first, last, points, ordinates, n, text, room, &length);
    *answer = (struct lastarunc_text){.refused = (int64_t)refused, .length = (int64_t)length};
    return answer->refused;
}

/* A form that is none is answered with UINT64_MAX, which is LASTARUNC_NO_FORM. */
static int64_t write_form(uint64_t form, int64_t first, int64_t last, size_t points, const int32_t *ordinates,
                          size_t n, uint8_t *text, size_t room, struct lastarunc_text *answer)
{
    uint64_t length, refused = c_write_form(form, first, last, points, ordinates, n, text, room, &length);
    *answer = (struct lastarunc_text){.refused = (int64_t)refused, .length = (int64_t)length};
    return answer->refused;
}
#endif

/* ---- The stream ---- */

/* Reads exactly n bytes, or ends the program: the stream is cut short. */
static void take(void *to, size_t n)
{
    if (fread(to, 1, n, stdin) != n) {
        fprintf(stderr, "compare: the stream ends inside a case\n");
        exit(2);
    }
}

/* Numbers are little endian, as on x86-64. */
static uint32_t take_u32(void)
{
    uint32_t number;
    take(&number, sizeof number);
    return number;
}

static uint64_t take_u64(void)
{
    uint64_t number;
    take(&number, sizeof number);
    return number;
}

static int64_t take_i64(void)
{
    return (int64_t)take_u64();
}

/* A reader's refusal; all 0 if it accepts. */
struct refusal {
    int64_t number, place, line, column;
};

static struct refusal take_refusal(void)
{
    struct refusal r;
    r.number = take_u32();
    r.place = take_i64();
    r.line = take_i64();
    r.column = take_i64();
    return r;
}

/* Memory for n entries of this size; the host of a test has no use for a null pointer. */
static void *memory(size_t n, size_t size)
{
    void *m = calloc(n ? n : 1, size);
    if (!m) {
        fprintf(stderr, "compare: no memory\n");
        exit(2);
    }
    return m;
}

/* The next n bytes of the stream in memory of their own, so that a tool which watches memory sees a read past them. */
static uint8_t *take_bytes(size_t n)
{
    uint8_t *m = memory(n, 1);
    take(m, n);
    return m;
}

static int32_t *take_ordinates(size_t n)
{
    int32_t *m = memory(n, sizeof *m);
    take(m, n * sizeof *m);
    return m;
}

static void *copy_of(const void *m, size_t n)
{
    void *copy = memory(n, 1);
    memcpy(copy, m, n);
    return copy;
}

/* ---- Lent memory with a pattern in it ---- */

static int32_t pattern_ordinate(size_t i)
{
    return (int32_t)(0x5A5A0000u ^ (uint32_t)(i * 2654435761u));
}

static uint8_t pattern_byte(size_t i)
{
    return (uint8_t)(0xA5 ^ i * 31);
}

/* Room for n ordinates and a guard behind them, all filled. */
static int32_t *filled_ordinates(size_t n)
{
    int32_t *m = memory(n + GUARD, sizeof *m);
    for (size_t i = 0; i < n + GUARD; i++)
        m[i] = pattern_ordinate(i);
    return m;
}

/* Room for n bytes, of a text or an answer, and a guard behind them, all filled: a field that is not set is seen. */
static void *filled_bytes(size_t n)
{
    uint8_t *m = memory(n + GUARD, 1);
    for (size_t i = 0; i < n + GUARD; i++)
        m[i] = pattern_byte(i);
    return m;
}

/* ---- Counting and telling ---- */

/* The kinds of case, writes by form, as they are counted; and what -1 means in answer to one. */
enum kind_of_case {
    BODIES,
    PLAIN_BODIES,
    WRITES,
    NO_FORM = WRITES + 4,
    FILES,
    RECORDS,
    WRITTEN_FILES,
    COMPOUND,
    BLOCK_RECORDS,
    PROFILES,
    SPOOLS,
    SPOOLED,
    DAMAGED,
    OLD_BODIES,
    OLD_FILES,
    REFUSED_BODIES,
    COMPLETED,
    KINDS = COMPLETED + 3
};
static const struct {
    const char *name, *minus_one;
} kinds[KINDS] = {
    [BODIES] = {"bodies", ""},
    [PLAIN_BODIES] = {"bodies, by the plain engine", ""},
    [WRITES + LASTARUNC_DIFDUP] = {"writes in DIFDUP", ""},
    [WRITES + LASTARUNC_AFFN] = {"writes in AFFN", ""},
    [WRITES + LASTARUNC_PAC] = {"writes in PAC", ""},
    [WRITES + LASTARUNC_SQZ] = {"writes in SQZ", ""},
    [NO_FORM] = {"writes in no form", "so answered"},
    [FILES] = {"files", ""},
    [RECORDS] = {"records", "absent"},
    [WRITTEN_FILES] = {"files to write", ""},
    [COMPOUND] = {"files as compound ones", ""},
    [BLOCK_RECORDS] = {"records of blocks", "absent"},
    [PROFILES] = {"files with a page", ""},
    [SPOOLS] = {"spools", ""},
    [SPOOLED] = {"files of spools", ""},
    [DAMAGED] = {"bodies with every byte damaged", ""},
    [OLD_BODIES] = {"old bodies, converted", ""},
    [OLD_FILES] = {"old files, converted", ""},
    [REFUSED_BODIES] = {"refused bodies", ""},
    [COMPLETED] = {"completed from the place", ""},
    [COMPLETED + 1] = {"completed from the line, N points given", ""},
    [COMPLETED + 2] = {"completed from the line, no room for a check", ""},
};

static unsigned long passed, failed;
static unsigned long counts[KINDS][MOST_NUMBERS];
static unsigned long case_number;

/* Says a text that may hold any byte, cut to a readable length. */
static void show_bytes(const char *what, const uint8_t *bytes, size_t n)
{
    printf("    %s, %zu bytes: \"", what, n);
    for (size_t i = 0; i < n && i < 300; i++) {
        if (bytes[i] == '\n')
            printf("\\n");
        else if (bytes[i] == '\r')
            printf("\\r");
        else if (bytes[i] == '"' || bytes[i] == '\\')
            printf("\\%c", bytes[i]);
        else if (bytes[i] >= 32 && bytes[i] < 127)
            putchar(bytes[i]);
        else
            printf("\\x%02x", bytes[i]);
    }
    printf(n > 300 ? "\"..\n" : "\"\n");
}

static void show_ordinates(const char *what, const int32_t *y, size_t n)
{
    printf("    %s, %zu:", what, n);
    for (size_t i = 0; i < n && i < 40; i++)
        if (y[i] == LASTARUNC_MISSING)
            printf(" ?");
        else
            printf(" %" PRId32, y[i]);
    printf(n > 40 ? " ..\n" : "\n");
}

static void show_refusal(const char *what, struct refusal r)
{
    printf("    %s: %" PRId64 " at %" PRId64 ", line %" PRId64 ", column %" PRId64, what, r.number, r.place, r.line,
           r.column);
}

/* Counts a case; true if its difference is to be shown. -1 counts as the last number. */
static bool counted(enum kind_of_case kind, int64_t number, const char *difference)
{
    counts[kind][0 <= number && number < MOST_NUMBERS ? number : MOST_NUMBERS - 1]++;
    if (!difference) {
        passed++;
        return false;
    }
    failed++;
    if (failed > MOST_SHOWN)
        return false;
    printf("case %lu (%s) differs: %s\n", case_number, kinds[kind].name, difference);
    return true;
}

/* What is wrong with a reader's refusal, or with what it returned beside it; NULL if nothing is. */
static const char *refusal_differs(int64_t returned, struct refusal r, struct refusal expected)
{
    if (r.number != expected.number)
        return "number";
    if (returned != r.number)
        return "it returns another number than it answers";
    if (r.place != expected.place)
        return "place";
    if (has_lines && (r.line != expected.line || r.column != expected.column))
        return "line or column";
    return NULL;
}

/* Whether a byte behind an answer is altered. */
static bool guard_altered(const void *answer, size_t size)
{
    const uint8_t *bytes = answer;
    for (size_t i = size; i < size + GUARD; i++)
        if (bytes[i] != pattern_byte(i))
            return true;
    return false;
}

/* The first difference of the ordinates from those expected, then from the pattern; NULL if there is none. */
static const char *ordinates_differ(const int32_t *out, size_t room, const int32_t *expected, size_t n)
{
    static char text[120];
    for (size_t i = 0; i < room + GUARD; i++) {
        int32_t right = i < n ? expected[i] : pattern_ordinate(i);
        if (out[i] == right)
            continue;
        if (i < n)
            snprintf(text, sizeof text, "ordinate %zu is %" PRId32 ", not %" PRId32, i, out[i], right);
        else
            snprintf(text, sizeof text, "entry %zu, past the %zu points, is altered", i, n);
        return text;
    }
    return NULL;
}

static const char *text_differs(const uint8_t *out, size_t room, const uint8_t *expected, size_t n)
{
    static char text[120];
    for (size_t i = 0; i < room + GUARD; i++) {
        if (out[i] == (i < n ? expected[i] : pattern_byte(i)))
            continue;
        snprintf(text, sizeof text, i < n ? "byte %zu of the text" : "byte %zu, past the text, is altered", i);
        return text;
    }
    return NULL;
}

/* ---- The kinds of case ---- */

/* A reader of tables. */
typedef int64_t body_reader(int64_t first, int64_t last, size_t points, const uint8_t *body, size_t body_len,
                            int32_t *out, size_t room, struct lastarunc_table *answer);

/* A body to be read into `room` ordinates, and the second reader's answer. */
struct body_case {
    int64_t first, last, count;
    uint64_t points;
    uint32_t room, length;
    uint8_t *body;
    struct refusal right;
    int32_t *expected;
};

static struct body_case take_body_case(void)
{
    struct body_case c;
    c.first = take_i64();
    c.last = take_i64();
    c.points = take_u64();
    c.room = take_u32();
    c.length = take_u32();
    c.body = take_bytes(c.length);
    c.right = take_refusal();
    c.count = take_i64();
    c.expected = take_ordinates((size_t)c.count);
    return c;
}

static void compare_reader(enum kind_of_case kind, body_reader *reader, const struct body_case *c)
{
    uint8_t *lent = copy_of(c->body, c->length);
    int32_t *out = filled_ordinates(c->room);
    struct lastarunc_table *answer = filled_bytes(sizeof *answer);
    int64_t returned = reader(c->first, c->last, c->points, lent, c->length, out, c->room, answer);
    struct refusal here = {answer->refused, answer->place, answer->line, answer->column};

    const char *difference = refusal_differs(returned, here, c->right);
    if (!difference && answer->points != c->count)
        difference = "count";
    if (!difference && guard_altered(answer, sizeof *answer))
        difference = "what stands behind the answer is altered";
    if (!difference && memcmp(lent, c->body, c->length))
        difference = "the body is altered";
    if (!difference)
        difference = ordinates_differ(out, c->room, c->expected, (size_t)c->count);
    if (counted(kind, c->right.number, difference)) {
        printf("    F %" PRId64 ", L %" PRId64 ", N %" PRIu64 ", room %" PRIu32 "\n", c->first, c->last, c->points,
               c->room);
        show_bytes("body", c->body, c->length);
        show_refusal("second", c->right);
        printf(", %" PRId64 " points\n", c->count);
        show_refusal("here", here);
        printf(", %" PRId64 " points, returned %" PRId64 "\n", answer->points, returned);
        show_ordinates("second's ordinates", c->expected, (size_t)c->count);
        show_ordinates("the lent ordinates now", out, c->room);
    }
    free(lent);
    free(out);
    free(answer);
}

/* A body, read by both engines. */
static void compare_body(void)
{
    struct body_case c = take_body_case();
    compare_reader(BODIES, read_table, &c);
#ifndef COMPARE_C
    compare_reader(PLAIN_BODIES, lastarunc_read_plain, &c);
#endif
    free(c.body);
    free(c.expected);
}

/* What is wrong with what a completion keeps of a refused body: all before the place, or all before its line. */
static const char *kept_differs(const struct body_case *refused, const struct body_case *table, bool all, size_t kept)
{
    size_t place = (size_t)refused->right.place;
    if (kept > place || place > refused->length || kept > table->length)
        return "more is kept than stands before the place";
    if (all && kept < place)
        return "less is kept than stands before the place";
    if (!all && (memchr(refused->body + kept, '\n', place - kept) || (kept && refused->body[kept - 1] != '\n')))
        return "what is kept does not end where the line begins";
    return memcmp(refused->body, table->body, kept) ? "what is kept is altered" : NULL;
}

/* A refused body, and a table that begins with what stands before the place. */
static void compare_kept(void)
{
    struct body_case refused = {0}, table;
    refused.first = take_i64();
    refused.last = take_i64();
    refused.points = take_u64();
    refused.room = (uint32_t)refused.points;
    table = refused;
    refused.length = take_u32();
    refused.body = take_bytes(refused.length);
    refused.right = take_refusal();
    uint32_t stays = take_u32();
    size_t kept = take_u64();
    table.length = take_u32();
    table.body = take_bytes(table.length);
    table.count = (int64_t)table.points;
    table.expected = take_ordinates(table.points);

    if (stays > 2) {
        fprintf(stderr, "compare: no such thing stays: %" PRIu32 "\n", stays);
        exit(2);
    }
    compare_reader(REFUSED_BODIES, read_table, &refused);
    enum kind_of_case kind = COMPLETED + stays;
    const char *difference = kept_differs(&refused, &table, stays == 0, kept);
    if (!difference)
        compare_reader(kind, read_table, &table);
    else if (counted(kind, 0, difference)) {
        show_bytes("body", refused.body, refused.length);
        show_bytes("table", table.body, table.length);
    }
    free(refused.body);
    free(table.body);
    free(table.expected);
}

/* A digest with a number mixed in (FNV-1a, a number at a time). */
static uint64_t mixed(uint64_t digest, uint64_t number)
{
    return (digest ^ number) * UINT64_C(0x100000001b3);
}

/* What becomes of the damages of a body: how many are refused, read as before, read as another list; and a digest. */
struct damaged {
    uint64_t refused, same, other, digest;
};

/* Reads one damaged body and counts its answer; `right` are the ordinates of the body as it was. */
static void count_damage(struct damaged *d, int64_t first, int64_t last, size_t points, const uint8_t *body,
                         size_t length, int32_t *out, const int32_t *right)
{
    struct lastarunc_table answer;
    int64_t number = read_table(first, last, points, body, length, out, points, &answer);
    d->digest = mixed(d->digest, (uint64_t)number);
    if (number) {
        d->digest = mixed(d->digest, (uint64_t)answer.place);
        d->refused++;
        return;
    }
    for (size_t i = 0; i < points; i++)
        d->digest = mixed(d->digest, (uint32_t)out[i]);
    if (memcmp(out, right, points * sizeof *out))
        d->other++;
    else
        d->same++;
}

/* An accepted body, each of its bytes exchanged for each of the 255 others. */
static void compare_damage(void)
{
    int64_t first = take_i64(), last = take_i64();
    size_t points = take_u64();
    uint32_t length = take_u32();
    uint8_t *body = take_bytes(length);
    struct damaged expected;
    expected.refused = take_u64();
    expected.same = take_u64();
    expected.other = take_u64();
    expected.digest = take_u64();

    int32_t *right = filled_ordinates(points), *out = filled_ordinates(points);
    struct lastarunc_table answer;
    struct damaged here = {.digest = UINT64_C(0xcbf29ce484222325)};
    int64_t number = read_table(first, last, points, body, length, right, points, &answer);
    for (size_t at = 0; !number && at < length; at++) {
        uint8_t was = body[at];
        for (int byte = 0; byte < 256; byte++)
            if (byte != was) {
                body[at] = (uint8_t)byte;
                count_damage(&here, first, last, points, body, length, out, right);
            }
        body[at] = was;
    }
    const char *difference = number ? "the body is refused" : NULL;
    if (!difference && (here.refused != expected.refused || here.same != expected.same || here.other != expected.other))
        difference = "how many are refused, or read as another list";
    if (!difference && here.digest != expected.digest)
        difference = "an answer";
    if (counted(DAMAGED, 0, difference))
        show_bytes("body", body, length);
    free(body);
    free(right);
    free(out);
}

/* What a length is answered with: the refusal, or the bytes of the text. */
struct measured {
    int64_t number, length;
};

static struct measured take_measured(void)
{
    struct measured m;
    m.number = take_u32();
    if (m.number == UINT32_MAX)
        m.number = LASTARUNC_NO_FORM;
    m.length = take_i64();
    return m;
}

/* A table of n ordinates to be written into `room` bytes, and the second writer's answer, a text of `length` bytes. */
struct write_case {
    int64_t first, last, number, place;
    uint64_t points;
    uint32_t form, n, room;
    size_t length;
    int32_t *ordinates;
    uint8_t *expected;
    struct measured measured;
};

static struct write_case take_write_case(void)
{
    struct write_case c;
    c.first = take_i64();
    c.last = take_i64();
    c.points = take_u64();
    c.form = take_u32();
    c.n = take_u32();
    c.ordinates = take_ordinates(c.n);
    c.room = take_u32();
    c.number = take_u32();
    if (c.number == UINT32_MAX)
        c.number = LASTARUNC_NO_FORM;
    c.place = take_i64();
    c.length = take_u64();
    c.expected = take_bytes(c.length);
    c.measured = take_measured();
    return c;
}

/* What write_form, or write_table if `form` is NULL, was lent, and what it answers and returns. */
struct written {
    int32_t *lent;
    uint8_t *text;
    struct lastarunc_text *answer;
    int64_t returned;
};

static struct written write_by(const struct write_case *c, const uint64_t *form)
{
    struct written w = {copy_of(c->ordinates, c->n * sizeof *c->ordinates), filled_bytes(c->room),
                        filled_bytes(sizeof *w.answer), 0};
    if (form)
        w.returned = write_form(*form, c->first, c->last, c->points, w.lent, c->n, w.text, c->room, w.answer);
    else
        w.returned = write_table(c->first, c->last, c->points, w.lent, c->n, w.text, c->room, w.answer);
    return w;
}

static void free_written(struct written *w)
{
    free(w->lent);
    free(w->text);
    free(w->answer);
}

/* What is wrong with an answer, or with what was lent; NULL if nothing is. */
static const char *written_differs(const struct write_case *c, const struct written *w)
{
    if (w->answer->refused != c->number || w->returned != c->number || c->place != 0)
        return "number";
    if (w->answer->length != (int64_t)c->length)
        return "length";
    if (w->answer->first_exact || w->answer->last_exact || w->answer->firsty_exact)
        return "what is exact";
    if (guard_altered(w->answer, sizeof *w->answer))
        return "what stands behind the answer is altered";
    if (memcmp(w->lent, c->ordinates, c->n * sizeof *c->ordinates))
        return "the ordinates are altered";
    return text_differs(w->text, c->room, c->expected, c->length);
}

static void show_written(const struct write_case *c, const struct written *w, const char *by)
{
    printf("    %s, form %" PRIu32 ", F %" PRId64 ", L %" PRId64 ", N %" PRIu64 ", room %" PRIu32 "\n", by, c->form,
           c->first, c->last, c->points, c->room);
    show_ordinates("ordinates", c->ordinates, c->n);
    printf("    second: %" PRId64 ", length %zu\n", c->number, c->length);
    printf("    here: %" PRId64 ", length %" PRId64 ", returned %" PRId64 "\n", w->answer->refused, w->answer->length,
           w->returned);
    show_bytes("second's text", c->expected, c->length);
    show_bytes("the lent text now", w->text, c->room);
}

/* What is wrong with the length that is told before writing, NULL if nothing is; the C writers tell none. */
static const char *length_differs(const struct write_case *c)
{
#ifdef COMPARE_C
    (void)c;
    return NULL;
#else
    int32_t *lent = copy_of(c->ordinates, c->n * sizeof *c->ordinates);
    struct lastarunc_text *answer = filled_bytes(sizeof *answer);
    int64_t returned = lastarunc_text_length(c->form, c->first, c->last, c->points, lent, c->n, answer);
    bool same = returned == c->measured.number && answer->refused == returned && answer->length == c->measured.length
        && !answer->first_exact && !answer->last_exact && !answer->firsty_exact
        && !guard_altered(answer, sizeof *answer) && !memcmp(lent, c->ordinates, c->n * sizeof *c->ordinates);
    free(lent);
    free(answer);
    return same ? NULL : "the length told before writing";
#endif
}

/*
 * By write_form; then again, in fresh memory, DIFDUP by write_table, and a form that is none by a number that is too
 * large for 32 bits and a form's in its low half. The first difference decides.
 */
static void compare_write(void)
{
    struct write_case c = take_write_case();
    const uint64_t form = c.form, large = form << 32 | form % 4;
    const char *by = "write_form", *difference;
    struct written w = write_by(&c, &form);

    difference = written_differs(&c, &w);
    if (!difference && (form == LASTARUNC_DIFDUP || c.number == LASTARUNC_NO_FORM)) {
        by = form == LASTARUNC_DIFDUP ? "write_table" : "write_form, a large number";
        free_written(&w);
        w = write_by(&c, form == LASTARUNC_DIFDUP ? NULL : &large);
        difference = written_differs(&c, &w);
    }
    if (!difference)
        difference = length_differs(&c);
    if (counted(c.form > LASTARUNC_SQZ ? NO_FORM : WRITES + c.form, c.number, difference))
        show_written(&c, &w, by);
    free_written(&w);
    free(c.ordinates);
    free(c.expected);
}

#ifndef COMPARE_C
/* Whether F, L and FIRSTY's quotient are exact. */
struct exact {
    int64_t first, last, firsty;
};

static struct exact take_exact(void)
{
    struct exact e;
    e.first = take_u32();
    e.last = take_u32();
    e.firsty = take_u32();
    return e;
}

static bool is_same(struct exact a, struct exact b)
{
    return a.first == b.first && a.last == b.last && a.firsty == b.firsty;
}

static struct exact exact_of(const struct lastarunc_file *answer)
{
    return (struct exact){answer->first_exact, answer->last_exact, answer->firsty_exact};
}

static void compare_file(void)
{
    uint32_t room = take_u32(), length = take_u32();
    uint8_t *file = take_bytes(length);
    struct refusal right = take_refusal();
    int64_t points = take_i64(), first = take_i64(), last = take_i64();
    struct exact exact = take_exact();
    int32_t *expected = take_ordinates((size_t)points);

    uint8_t *lent = copy_of(file, length);
    int32_t *out = filled_ordinates(room);
    struct lastarunc_file *answer = filled_bytes(sizeof *answer);
    int64_t returned = lastarunc_read_file(lent, length, out, room, answer);
    struct refusal here = {answer->refused, answer->place, answer->line, answer->column};

    const char *difference = refusal_differs(returned, here, right);
    if (!difference && answer->points != points)
        difference = "count";
    if (!difference && (answer->first != first || answer->last != last))
        difference = "F or L";
    if (!difference && !is_same(exact_of(answer), exact))
        difference = "what is exact";
    if (!difference && guard_altered(answer, sizeof *answer))
        difference = "what stands behind the answer is altered";
    if (!difference && memcmp(lent, file, length))
        difference = "the file is altered";
    if (!difference)
        difference = ordinates_differ(out, room, expected, (size_t)points);
    if (counted(FILES, right.number, difference)) {
        printf("    room %" PRIu32 "\n", room);
        show_bytes("file", file, length);
        show_refusal("second", right);
        printf(", N %" PRId64 ", F %" PRId64 ", L %" PRId64 "\n", points, first, last);
        show_refusal("here", here);
        printf(", N %" PRId64 ", F %" PRId64 ", L %" PRId64 ", returned %" PRId64 "\n", answer->points, answer->first,
               answer->last, returned);
    }
    free(lent);
    free(out);
    free(answer);
    free(file);
    free(expected);
}

static void compare_record(void)
{
    uint32_t length = take_u32();
    uint8_t *file = take_bytes(length);
    uint32_t name_length = take_u32();
    uint8_t *name = take_bytes(name_length);
    struct refusal right = take_refusal();
    if (right.number == UINT32_MAX)
        right.number = LASTARUNC_ABSENT;
    int64_t from = take_i64(), to = take_i64();

    uint8_t *lent = copy_of(file, length), *lent_name = copy_of(name, name_length);
    struct lastarunc_record *answer = filled_bytes(sizeof *answer);
    int64_t returned = lastarunc_find_record(lent, length, lent_name, name_length, answer);
    struct refusal here = {answer->refused, answer->place, answer->line, answer->column};

    const char *difference = refusal_differs(returned, here, right);
    if (!difference && (answer->from != from || answer->to != to))
        difference = "from or to";
    if (!difference && guard_altered(answer, sizeof *answer))
        difference = "what stands behind the answer is altered";
    if (!difference && (memcmp(lent, file, length) || memcmp(lent_name, name, name_length)))
        difference = "the file or the name is altered";
    if (counted(RECORDS, right.number, difference)) {
        show_bytes("name", name, name_length);
        show_bytes("file", file, length);
        show_refusal("second", right);
        printf(", from %" PRId64 " to %" PRId64 "\n", from, to);
        show_refusal("here", here);
        printf(", from %" PRId64 " to %" PRId64 ", returned %" PRId64 "\n", answer->from, answer->to, returned);
    }
    free(lent);
    free(lent_name);
    free(answer);
    free(file);
    free(name);
}

/* A file that may be a compound one, and the second reader's answer: what it is, and each of its data blocks. */
struct compound_case {
    uint32_t room, length;
    uint8_t *file;
    struct refusal right;
    int64_t compound, blocks;
};

/* A data block as the second reader answers it. */
struct block_case {
    int64_t from, to;
    struct refusal right;
    int64_t points, first, last;
    struct exact exact;
    int32_t *expected;
};

static struct block_case take_block(void)
{
    struct block_case b;
    b.from = take_i64();
    b.to = take_i64();
    b.right = take_refusal();
    b.points = take_i64();
    b.first = take_i64();
    b.last = take_i64();
    b.exact = take_exact();
    b.expected = take_ordinates((size_t)b.points);
    return b;
}

/* What is wrong with the answer to a block, or with the ordinates lent; NULL if nothing is. */
static const char *block_differs(const struct block_case *b, struct refusal right, int64_t returned,
                                 const struct lastarunc_file *answer, const int32_t *out, uint32_t room)
{
    struct refusal here = {answer->refused, answer->place, answer->line, answer->column};
    const char *difference = refusal_differs(returned, here, right);
    if (!difference && (answer->points != b->points || answer->first != b->first || answer->last != b->last))
        difference = "N, F or L of a block";
    if (!difference && !is_same(exact_of(answer), b->exact))
        difference = "what is exact in a block";
    if (!difference && guard_altered(answer, sizeof *answer))
        difference = "what stands behind the answer is altered";
    return difference ? difference : ordinates_differ(out, room, b->expected, (size_t)b->points);
}

/* Reads a block where it stands, and, cut out, as a file; the first difference, NULL if there is none. */
static const char *read_block(const struct compound_case *c, const struct block_case *b,
                              const struct lastarunc_block *found)
{
    if (found->from != b->from || found->to != b->to)
        return "where a block stands";
    int32_t *out = filled_ordinates(c->room);
    struct lastarunc_file *answer = filled_bytes(sizeof *answer);
    int64_t returned = lastarunc_read_block(c->file, c->length, found, out, c->room, answer);
    const char *difference = block_differs(b, b->right, returned, answer, out, c->room);
    free(out);
    free(answer);
    if (difference)
        return difference;

    size_t length = (size_t)(b->to - b->from);
    uint8_t *cut = copy_of(c->file + b->from, length);
    out = filled_ordinates(c->room);
    answer = filled_bytes(sizeof *answer);
    returned = lastarunc_read_file(cut, length, out, c->room, answer);
    if (b->right.number > 2) { /* the place in the whole file; its line and column were compared above */
        answer->place += b->from;
        answer->line = b->right.line;
        answer->column = b->right.column;
    }
    difference = block_differs(b, b->right, returned, answer, out, c->room);
    free(cut);
    free(out);
    free(answer);
    return difference ? "a block, cut out" : NULL;
}

/* Lends memory for as many blocks as there are, or one less or more, by turns. */
static void compare_compound(void)
{
    struct compound_case c;
    c.room = take_u32();
    c.length = take_u32();
    c.file = take_bytes(c.length);
    c.right = take_refusal();
    c.compound = take_u32();
    c.blocks = take_i64();

    uint8_t *before = copy_of(c.file, c.length);
    size_t lent = (size_t)c.blocks + case_number % 3, most = lent ? lent - 1 : 0;
    struct lastarunc_block *blocks = filled_bytes(most * sizeof *blocks);
    struct lastarunc_block *untouched = filled_bytes(most * sizeof *blocks);
    struct lastarunc_blocks *answer = filled_bytes(sizeof *answer);
    int64_t returned = lastarunc_find_blocks(c.file, c.length, blocks, 4 * most, answer);
    struct refusal here = {answer->refused, answer->place, answer->line, answer->column};
    const char *difference = refusal_differs(returned, here, c.right);
    if (!difference && (answer->compound != c.compound || answer->blocks != c.blocks))
        difference = "how many blocks";
    if (!difference && guard_altered(answer, sizeof *answer))
        difference = "what stands behind the answer is altered";
    for (size_t k = 0; k < (size_t)c.blocks; k++) {
        struct block_case b = take_block();
        if (!difference && k < most)
            difference = read_block(&c, &b, &blocks[k]);
        free(b.expected);
    }
    size_t stored = most < (size_t)c.blocks ? most : (size_t)c.blocks;
    if (!difference && memcmp(blocks + stored, untouched + stored, (most - stored) * sizeof *blocks))
        difference = "blocks past the last are altered";
    if (!difference && memcmp(before, c.file, c.length))
        difference = "the file is altered";
    if (counted(COMPOUND, c.right.number, difference)) {
        show_bytes("file", c.file, c.length);
        show_refusal("second", c.right);
        printf(", compound %" PRId64 ", blocks %" PRId64 "\n", c.compound, c.blocks);
        show_refusal("here", here);
        printf(", compound %" PRId64 ", blocks %" PRId64 ", returned %" PRId64 "\n", answer->compound, answer->blocks,
               returned);
    }
    free(before);
    free(blocks);
    free(untouched);
    free(answer);
    free(c.file);
}

/* The record of data block k of a file; one of a block that is not there is asked of no places of the file. */
static void compare_block_record(void)
{
    uint32_t length = take_u32();
    uint8_t *file = take_bytes(length);
    uint64_t k = take_u64();
    uint32_t name_length = take_u32();
    uint8_t *name = take_bytes(name_length);
    struct refusal right = take_refusal();
    if (right.number == UINT32_MAX)
        right.number = LASTARUNC_ABSENT;
    int64_t from = take_i64(), to = take_i64();

    size_t most = (size_t)k + 1;
    struct lastarunc_block *blocks = memory(most, sizeof *blocks), none = {0, 0, 1, 0};
    struct lastarunc_blocks found;
    struct lastarunc_record *answer = filled_bytes(sizeof *answer);
    int64_t returned = lastarunc_find_blocks(file, length, blocks, 4 * most, &found);
    if (!returned) {
        returned = lastarunc_find_in_block(file, length, (int64_t)k < found.blocks ? &blocks[k] : &none, name,
                                           name_length, answer);
    } else {
        *answer = (struct lastarunc_record){found.refused, found.place, found.line, found.column, 0, 0};
    }
    struct refusal here = {answer->refused, answer->place, answer->line, answer->column};
    const char *difference = refusal_differs(returned, here, right);
    if (!difference && (answer->from != from || answer->to != to))
        difference = "from or to";
    if (counted(BLOCK_RECORDS, right.number, difference)) {
        show_bytes("name", name, name_length);
        show_bytes("file", file, length);
        show_refusal("second", right);
        printf(", block %" PRIu64 ", from %" PRId64 " to %" PRId64 "\n", k, from, to);
        show_refusal("here", here);
        printf(", from %" PRId64 " to %" PRId64 ", returned %" PRId64 "\n", answer->from, answer->to, returned);
    }
    free(blocks);
    free(answer);
    free(file);
    free(name);
}

/* A file to be read with a page beside it, and the second reader's answer. */
struct profile_case {
    uint32_t room, length, page_length;
    uint8_t *file, *page;
    struct refusal right;
    int64_t on_page, points, first, last;
    struct exact exact;
    struct lastarunc_shown shown[LASTARUNC_WANTED];
    int32_t *expected;
};

static struct profile_case take_profile(void)
{
    struct profile_case c = {.room = take_u32()};
    c.length = take_u32();
    c.file = take_bytes(c.length);
    c.page_length = take_u32();
    c.page = take_bytes(c.page_length);
    c.right = take_refusal();
    c.on_page = take_u32();
    if (!c.right.number) {
        c.points = take_i64();
        c.first = take_i64();
        c.last = take_i64();
        c.exact = take_exact();
        for (int k = 0; k < LASTARUNC_WANTED; k++) {
            c.shown[k].on_page = take_u32();
            c.shown[k].from = take_i64();
            c.shown[k].to = take_i64();
        }
    }
    c.expected = take_ordinates((size_t)c.points);
    return c;
}

/* What is wrong with an answer, or with what was lent; NULL if nothing is. */
static const char *profile_differs(const struct profile_case *c, int64_t returned,
                                   const struct lastarunc_profile *answer, const struct lastarunc_shown *shown)
{
    struct refusal here = {answer->refused, answer->place, answer->line, answer->column};
    struct exact exact = {answer->first_exact, answer->last_exact, answer->firsty_exact};
    const char *difference = refusal_differs(returned, here, c->right);
    if (!difference && answer->on_page != c->on_page)
        difference = "file or page";
    if (!difference && (answer->points != c->points || answer->first != c->first || answer->last != c->last))
        difference = "N, F or L";
    if (!difference && !is_same(exact, c->exact))
        difference = "what is exact";
    if (!difference && guard_altered(answer, sizeof *answer))
        difference = "what stands behind the answer is altered";
    struct lastarunc_shown *untouched = filled_bytes(sizeof c->shown);
    if (!difference && memcmp(shown, c->right.number ? untouched : c->shown, sizeof c->shown))
        difference = "where the texts stand";
    free(untouched);
    return difference;
}

static void compare_profile(void)
{
    struct profile_case c = take_profile();
    uint8_t *file = copy_of(c.file, c.length), *page = copy_of(c.page, c.page_length);
    int32_t *out = filled_ordinates(c.room);
    struct lastarunc_shown *shown = filled_bytes(sizeof c.shown);
    struct lastarunc_profile *answer = filled_bytes(sizeof *answer);
    int64_t returned = lastarunc_read_profile(file, c.length, page, c.page_length, out, c.room, shown, answer);

    const char *difference = profile_differs(&c, returned, answer, shown);
    if (!difference && (memcmp(file, c.file, c.length) || memcmp(page, c.page, c.page_length)))
        difference = "the file or the page is altered";
    if (!difference)
        difference = ordinates_differ(out, c.room, c.expected, (size_t)c.points);
    if (counted(PROFILES, c.right.number, difference)) {
        show_bytes("file", c.file, c.length);
        show_bytes("page", c.page, c.page_length);
        show_refusal("second", c.right);
        printf(", on page %" PRId64 "\n", c.on_page);
        show_refusal("here", (struct refusal){answer->refused, answer->place, answer->line, answer->column});
        printf(", on page %" PRId64 ", returned %" PRId64 "\n", answer->on_page, returned);
    }
    free(file);
    free(page);
    free(out);
    free(shown);
    free(answer);
    free(c.file);
    free(c.page);
    free(c.expected);
}

/* A level that may be none. */
static int64_t take_level(void)
{
    bool given = take_u32();
    int64_t level = take_i64();
    return given ? level : LASTARUNC_NONE;
}

/* The report of a file that the second reader makes, and a digest of its ordinates. */
struct reported {
    int64_t at;
    struct lastarunc_report report;
    uint64_t digest;
};

static struct reported take_reported(void)
{
    struct reported r = {.at = take_i64()};
    struct refusal refusal = take_refusal();
    r.report = (struct lastarunc_report){.refused = refusal.number,
                                         .place = refusal.place,
                                         .line = refusal.line,
                                         .column = refusal.column,
                                         .lowest = LASTARUNC_NONE,
                                         .highest = LASTARUNC_NONE,
                                         .faintest = LASTARUNC_NONE};
    if (refusal.number)
        return r;
    r.report.points = take_i64();
    r.report.missing = take_i64();
    r.report.lowest = take_level();
    r.report.highest = take_level();
    r.report.sum = take_i64();
    r.report.faintest = take_level();
    r.digest = take_u64();
    return r;
}

/* FNV-1a over the bytes of ordinates. */
static uint64_t digest_of(const int32_t *y, size_t n)
{
    uint64_t digest = UINT64_C(0xcbf29ce484222325);
    for (size_t i = 0; i < n; i++)
        for (int shift = 0; shift < 32; shift += 8)
            digest = mixed(digest, (uint8_t)((uint32_t)y[i] >> shift));
    return digest;
}

/* What is wrong with a step of a walk, or with the ordinates lent to it, which were `before`; NULL if nothing is. */
static const char *report_differs(const struct reported *right, int64_t returned, int64_t at,
                                  const struct lastarunc_report *here, const int32_t *out, const int32_t *before,
                                  size_t room)
{
    size_t n = (size_t)right->report.points;
    if (at != right->at)
        return "the place of a file in the spool";
    if (memcmp(here, &right->report, sizeof *here))
        return "the report of a file";
    if (returned != here->refused)
        return "it returns another number than it answers";
    if (!here->refused && digest_of(out, n) != right->digest)
        return "the ordinates of a file";
    if (memcmp(out + n, before + n, (room + GUARD - n) * sizeof *out))
        return "an entry past the points, or after a refusal, is altered";
    return NULL;
}

static void show_report(const char *what, int64_t at, const struct lastarunc_report *r)
{
    printf("    %s: at %" PRId64 ", refused %" PRId64 " %" PRId64 ", ended %" PRId64 ", %" PRId64 " points, %" PRId64
           " missing, %" PRId64 " to %" PRId64 ", sum %" PRId64 ", faintest %" PRId64 "\n",
           what, at, r->refused, r->place, r->ended, r->points, r->missing, r->lowest, r->highest, r->sum, r->faintest);
}

/* A spool, walked step by step; each file counts as a case too. */
static void compare_spool(void)
{
    uint32_t room = take_u32(), length = take_u32();
    uint8_t *spool = take_bytes(length), *lent = copy_of(spool, length);
    uint32_t files = take_u32();
    int32_t *out = filled_ordinates(room), *before = filled_ordinates(room);
    struct lastarunc_progress progress = {0};
    struct lastarunc_report *report = filled_bytes(sizeof *report);
    for (uint32_t k = 0; k < files; k++) {
        struct reported right = take_reported();
        int64_t at = progress.at;
        int64_t returned = lastarunc_next_report(lent, length, out, room, &progress, report);
        const char *difference = report_differs(&right, returned, at, report, out, before, room);
        if (counted(SPOOLED, right.report.refused, difference)) {
            show_bytes("spool", spool, length);
            show_report("second", right.at, &right.report);
            show_report("here", at, report);
        }
        memcpy(before, out, (room + GUARD) * sizeof *out);
    }
    struct lastarunc_progress totals = {.at = progress.at, .seen = files};
    totals.files = take_i64();
    totals.points = take_i64();
    totals.missing = take_i64();
    totals.sum = take_i64();
    struct lastarunc_report end = {.ended = 1, .lowest = LASTARUNC_NONE, .highest = LASTARUNC_NONE};
    end.refused = take_u32();
    end.place = take_i64();
    end.faintest = LASTARUNC_NONE;
    int64_t returned = lastarunc_next_report(lent, length, out, room, &progress, report);

    const char *difference = returned != end.refused ? "number" : NULL;
    if (!difference && memcmp(report, &end, sizeof end))
        difference = "how the spool ended";
    if (!difference && memcmp(&progress, &totals, sizeof totals))
        difference = "the totals";
    if (!difference && guard_altered(report, sizeof *report))
        difference = "what stands behind the answer is altered";
    if (!difference && (memcmp(lent, spool, length) || memcmp(out, before, (room + GUARD) * sizeof *out)))
        difference = "the spool or an ordinate is altered";
    if (counted(SPOOLS, end.refused, difference)) {
        show_bytes("spool", spool, length);
        show_report("second", progress.at, &end);
        show_report("here", progress.at, report);
    }
    free(spool);
    free(lent);
    free(out);
    free(before);
    free(report);
}

/* An old body, converted and then read: the bytes, and the answer of before. */
static void compare_old_body(void)
{
    int64_t first = take_i64(), last = take_i64();
    uint64_t points = take_u64();
    uint32_t room = take_u32(), length = take_u32();
    uint8_t *body = take_bytes(length), *converted = take_bytes(length);
    struct refusal right = take_refusal();
    int64_t count = take_i64();
    int32_t *expected = take_ordinates((size_t)count);

    uint8_t *lent = filled_bytes(length);
    memcpy(lent, body, length);
    int32_t *out = filled_ordinates(room);
    struct lastarunc_table answer;
    lastarunc_detab_table(lent, length);
    const char *difference = memcmp(lent, converted, length) ? "a converted byte" : NULL;
    if (!difference && guard_altered(lent, length))
        difference = "a byte behind the body is altered";
    int64_t returned = lastarunc_read_table(first, last, points, lent, length, out, room, &answer);
    struct refusal here = {answer.refused, answer.place, answer.line, answer.column};
    if (!difference)
        difference = refusal_differs(returned, here, right);
    if (!difference)
        difference = ordinates_differ(out, room, expected, (size_t)count);
    if (counted(OLD_BODIES, right.number, difference)) {
        show_bytes("body", body, length);
        show_bytes("converted", lent, length);
        show_refusal("second", right);
        show_refusal(", here", here);
        printf("\n");
    }
    free(body);
    free(converted);
    free(expected);
    free(lent);
    free(out);
}

/* An old file, converted and then read: the bytes, whether there is a body, and the answer of before. */
static void compare_old_file(void)
{
    uint32_t room = take_u32(), length = take_u32();
    uint8_t *file = take_bytes(length), *converted = take_bytes(length);
    bool has_body = take_u32();
    struct refusal right = take_refusal();
    int64_t points = take_i64(), first = take_i64(), last = take_i64();
    struct exact exact = take_exact();
    int32_t *expected = take_ordinates((size_t)points);

    uint8_t *lent = filled_bytes(length);
    memcpy(lent, file, length);
    int32_t *out = filled_ordinates(room);
    struct lastarunc_file answer;
    const char *difference = lastarunc_detab_file(lent, length) != has_body ? "whether there is a body" : NULL;
    if (!difference && memcmp(lent, converted, length))
        difference = "a converted byte";
    if (!difference && guard_altered(lent, length))
        difference = "a byte behind the file is altered";
    int64_t returned = lastarunc_read_file(lent, length, out, room, &answer);
    struct refusal here = {answer.refused, answer.place, answer.line, answer.column};
    if (!difference)
        difference = refusal_differs(returned, here, right);
    if (!difference && (answer.points != points || answer.first != first || answer.last != last))
        difference = "N, F or L";
    if (!difference && !is_same((struct exact){answer.first_exact, answer.last_exact, answer.firsty_exact}, exact))
        difference = "what is exact";
    if (!difference)
        difference = ordinates_differ(out, room, expected, (size_t)points);
    if (counted(OLD_FILES, right.number, difference)) {
        show_bytes("file", file, length);
        show_bytes("converted", lent, length);
        show_refusal("second", right);
        show_refusal(", here", here);
        printf("\n");
    }
    free(file);
    free(converted);
    free(expected);
    free(lent);
    free(out);
}

/* A file to be written into `room` bytes, and the second writer's answer: F and L, and a text of `length` bytes. */
struct file_case {
    uint32_t title_length, n, room;
    uint8_t *title, *expected;
    uint64_t points;
    struct lastarunc_scales scales;
    int32_t *ordinates;
    int64_t number, place, first, last;
    struct exact exact;
    size_t length;
    struct measured measured;
};

static struct lastarunc_decimal take_decimal(void)
{
    struct lastarunc_decimal d;
    d.mantissa = take_i64();
    d.exponent = take_i64();
    return d;
}

static struct file_case take_file_case(void)
{
    struct file_case c;
    c.title_length = take_u32();
    c.title = take_bytes(c.title_length);
    c.points = take_u64();
    c.scales.xfactor = take_decimal();
    c.scales.yfactor = take_decimal();
    c.scales.firstx = take_decimal();
    c.scales.lastx = take_decimal();
    c.scales.firsty = take_decimal();
    c.n = take_u32();
    c.ordinates = take_ordinates(c.n);
    c.room = take_u32();
    c.number = take_u32();
    c.place = take_i64();
    c.first = take_i64();
    c.last = take_i64();
    c.exact = take_exact();
    c.length = take_u64();
    c.expected = take_bytes(c.length);
    c.measured = take_measured();
    return c;
}

/* What lastarunc_write_file was lent, each in memory of its own, and what it answers and returns. */
struct written_file {
    uint8_t *title, *text;
    struct lastarunc_scales *scales;
    int32_t *ordinates;
    struct lastarunc_text *answer;
    int64_t returned;
};

static struct written_file write_the_file(const struct file_case *c)
{
    struct written_file w;
    w.title = copy_of(c->title, c->title_length);
    w.text = filled_bytes(c->room);
    w.scales = copy_of(&c->scales, sizeof c->scales);
    w.ordinates = copy_of(c->ordinates, c->n * sizeof *c->ordinates);
    w.answer = filled_bytes(sizeof *w.answer);
    w.returned = lastarunc_write_file(w.title, c->title_length, c->points, w.scales, w.ordinates, c->n, w.text, c->room,
                                      w.answer);
    return w;
}

/* What is wrong with reading a written file back, into room for just its points; NULL if nothing is. */
static const char *read_back_differs(const struct file_case *c, const uint8_t *text)
{
    int32_t *out = filled_ordinates(c->points);
    struct lastarunc_file file;
    const char *difference = NULL;
    if (lastarunc_read_file(text, c->length, out, c->points, &file) || file.refused)
        difference = "read back, it is refused";
    else if (file.points != (int64_t)c->points)
        difference = "read back, it has another N";
    else if (file.first != c->first || file.last != c->last)
        difference = "read back, it has another F or L";
    else if (!is_same(exact_of(&file), c->exact))
        difference = "read back, something else is exact";
    else
        difference = ordinates_differ(out, c->points, c->ordinates, c->points);
    free(out);
    return difference;
}

/* What is wrong with an answer, with what was lent, or with the file read back; NULL if nothing is. */
static const char *written_file_differs(const struct file_case *c, const struct written_file *w)
{
    if (w->answer->refused != c->number || w->returned != c->number || c->place != 0)
        return "number";
    if (w->answer->length != (int64_t)c->length)
        return "length";
    if (!is_same((struct exact){w->answer->first_exact, w->answer->last_exact, w->answer->firsty_exact}, c->exact))
        return "what is exact";
    if (guard_altered(w->answer, sizeof *w->answer))
        return "what stands behind the answer is altered";
    if (memcmp(w->title, c->title, c->title_length))
        return "the title is altered";
    if (memcmp(w->scales, &c->scales, sizeof c->scales))
        return "the scales are altered";
    if (memcmp(w->ordinates, c->ordinates, c->n * sizeof *c->ordinates))
        return "the ordinates are altered";
    const char *difference = text_differs(w->text, c->room, c->expected, c->length);
    return difference || c->number ? difference : read_back_differs(c, w->text);
}

static void show_decimal(const char *what, struct lastarunc_decimal d)
{
    printf(" %s %" PRId64 "E%" PRId64, what, d.mantissa, d.exponent);
}

static void show_written_file(const struct file_case *c, const struct written_file *w)
{
    show_bytes("title", c->title, c->title_length);
    printf("    N %" PRIu64 ", room %" PRIu32 ",", c->points, c->room);
    show_decimal("XFACTOR", c->scales.xfactor);
    show_decimal("YFACTOR", c->scales.yfactor);
    show_decimal("FIRSTX", c->scales.firstx);
    show_decimal("LASTX", c->scales.lastx);
    show_decimal("FIRSTY", c->scales.firsty);
    printf("\n");
    show_ordinates("ordinates", c->ordinates, c->n);
    printf("    second: %" PRId64 ", length %zu, F %" PRId64 ", L %" PRId64 "\n", c->number, c->length, c->first,
           c->last);
    printf("    here: %" PRId64 ", length %" PRId64 ", returned %" PRId64 "\n", w->answer->refused, w->answer->length,
           w->returned);
    show_bytes("second's text", c->expected, c->length);
    show_bytes("the lent text now", w->text, c->room);
}

/* What is wrong with the length of the file that is told before writing; NULL if nothing is. */
static const char *file_length_differs(const struct file_case *c)
{
    struct lastarunc_text *answer = filled_bytes(sizeof *answer);
    int64_t returned = lastarunc_file_length(c->title, c->title_length, c->points, &c->scales, c->ordinates, c->n,
                                             answer);
    bool same = returned == c->measured.number && answer->refused == returned && answer->length == c->measured.length
        && !guard_altered(answer, sizeof *answer);
    free(answer);
    return same ? NULL : "the length told before writing";
}

static void compare_written_file(void)
{
    struct file_case c = take_file_case();
    struct written_file w = write_the_file(&c);
    const char *difference = written_file_differs(&c, &w);
    if (counted(WRITTEN_FILES, c.number, difference ? difference : file_length_differs(&c)))
        show_written_file(&c, &w);
    free(w.title);
    free(w.text);
    free(w.scales);
    free(w.ordinates);
    free(w.answer);
    free(c.title);
    free(c.ordinates);
    free(c.expected);
}
#endif

/* Says how often each answer was expected, by kind of case. */
static void show_counts(void)
{
    for (int kind = 0; kind < KINDS; kind++) {
        unsigned long all = 0;
        for (int number = 0; number < MOST_NUMBERS; number++)
            all += counts[kind][number];
        if (!all)
            continue;
        printf("%s: %lu cases;", kinds[kind].name, all);
        const char *comma = "";
        for (int number = 0; number < MOST_NUMBERS; number++) {
            unsigned long times = counts[kind][number];
            if (!times)
                continue;
            if (number == 0)
                printf(" accepted %lu", times);
            else if (number == MOST_NUMBERS - 1)
                printf("%s %s %lu", comma, kinds[kind].minus_one, times);
            else
                printf("%s refused %d: %lu", comma, number, times);
            comma = ",";
        }
        printf("\n");
    }
}

int main(void)
{
    for (int kind; (kind = getchar()) != EOF; case_number++) {
        switch (kind) {
        case 'B':
            compare_body();
            break;
        case 'W':
            compare_write();
            break;
        case 'D':
            compare_damage();
            break;
        case 'A':
            compare_kept();
            break;
#ifndef COMPARE_C
        case 'F':
            compare_file();
            break;
        case 'R':
            compare_record();
            break;
        case 'V':
            compare_written_file();
            break;
        case 'C':
            compare_compound();
            break;
        case 'K':
            compare_block_record();
            break;
        case 'P':
            compare_profile();
            break;
        case 'N':
            compare_spool();
            break;
        case 'T':
            compare_old_body();
            break;
        case 'U':
            compare_old_file();
            break;
#endif
        default:
            fprintf(stderr, "compare: no such kind of case: %d\n", kind);
            return 2;
        }
    }
    if (failed > MOST_SHOWN)
        printf("%lu more differ\n", failed - MOST_SHOWN);
    show_counts();
    printf("%lu passed, %lu failed\n", passed, failed);
    return failed > 0;
}
