/* Makes the bench's spectra: ion peaks on a baseline that drifts, with noise, in whole numbers only. */
#include "tables.h"

#include "c_table.h"

#include <stdio.h>
#include <stdlib.h>
#include <string.h>

/* The kinds of spectrum: how wide the noise is, one point in how many changes at all, one in how many is missing. */
static const struct spectrum {
    const char *name;
    int32_t noise, change, missing;
} spectra[] = {
    {"typical", 110, 1, 5000},
    {"quiet", 9, 5, 5000},
    {"noisy", 950, 1, 5000},
};

/* splitmix64. */
static uint64_t random_bits(uint64_t *seed)
{
    uint64_t z = *seed += UINT64_C(0x9E3779B97F4A7C15);
    z = (z ^ z >> 30) * UINT64_C(0xBF58476D1CE4E5B9);
    z = (z ^ z >> 27) * UINT64_C(0x94D049BB133111EB);
    return z ^ z >> 31;
}

/* Noise about 0: the sum of four even draws, so that it falls off as a bell does. */
static int64_t noise(uint64_t *seed, int32_t width)
{
    int64_t sum = 0;
    for (int i = 0; i < 4; i++)
        sum += (int64_t)(random_bits(seed) % (uint64_t)(2 * width + 1)) - width;
    return sum / 2;
}

/* A peak of this height and half width at its centre, seen from x: a Lorentz curve. */
static int64_t peak(int64_t x, int64_t centre, int64_t height, int64_t width)
{
    return height * width * width / (width * width + (x - centre) * (x - centre));
}

/* The spectrum's ordinates: a reactant ion peak, six smaller ones and a slow drift, spread over the points. */
static void make_ordinates(const struct spectrum *s, uint64_t seed, int32_t *y, size_t points)
{
    int64_t centre[7], height[7], width[7];
    for (int k = 0; k < 7; k++) {
        centre[k] = (int64_t)(random_bits(&seed) % points);
        height[k] = k == 0 ? 180000 : (int64_t)(2000 + random_bits(&seed) % 40000);
        width[k] = (int64_t)(points / 160 + random_bits(&seed) % (points / 160 + 1));
    }
    int64_t held = 0;
    for (size_t i = 0; i < points; i++) {
        int64_t x = (int64_t)i, sum = 350 - 200 * x / (int64_t)points;
        for (int k = 0; k < 7; k++)
            sum += peak(x, centre[k], height[k], width[k]);
        if (random_bits(&seed) % (uint64_t)s->change == 0)
            held = noise(&seed, s->noise);
        y[i] = random_bits(&seed) % (uint64_t)s->missing == 0 ? MISSING_ORDINATE : (int32_t)(sum + held);
    }
}

static void *memory(size_t n)
{
    void *m = malloc(n);
    if (!m)
        exit(2);
    return m;
}

/* A table of this kind, a point each 200 thousandths: ordinates, and the body as the C writer writes it. */
static struct table *table_of(const struct spectrum *s, uint64_t seed, size_t points, uint64_t form)
{
    struct table *t = memory(sizeof *t);
    const size_t room = 34 * points + 24;
    *t = (struct table){form, 0, 200 * ((int64_t)points - 1), points, 0, memory(points * sizeof(int32_t)),
                        memory(room)};
    make_ordinates(s, seed, t->ordinates, points);
    uint64_t length;
    if (c_write_form(form, t->first, t->last, points, t->ordinates, points, t->body, room, &length))
        exit(2);
    t->length = length;
    return t;
}

/* A table as a person or a spreadsheet writes it: AFFN, five long ordinates and a comment on a line, some 16 bytes a point. */
static struct table *plain_table(uint64_t seed, size_t points)
{
    struct table *t = memory(sizeof *t);
    *t = (struct table){FORM_AFFN, 0, 200 * ((int64_t)points - 1), points, 0, memory(points * sizeof(int32_t)),
                        memory(40 * points + 40)};
    char *p = (char *)t->body;
    for (size_t i = 0; i < points; i++) {
        t->ordinates[i] = (int32_t)(random_bits(&seed) % 4000000000 - 2000000000);
        if (i % 5 == 0)
            p += sprintf(p, "%s%zu.%zu", i ? " $$ by hand\r\n" : "", i / 5, i % 5 * 2);
        p += sprintf(p, " %d", (int)t->ordinates[i]);
    }
    p += sprintf(p, "\r\n");
    t->length = (size_t)((uint8_t *)p - t->body);
    return t;
}

/* The form that a table's name ends with, DIFDUP if it has no dot; one past the last if there is no such form. */
static uint64_t form_of(const char *name)
{
    static const char *const forms[] = {"DIFDUP", "AFFN", "PAC", "SQZ"};
    const char *dot = strchr(name, '.');
    uint64_t form = FORM_DIFDUP;
    while (dot && form <= FORM_SQZ && strcmp(dot + 1, forms[form]))
        form++;
    return form;
}

/* The points that a table's name asks for: those after `-`, or 65,536. */
static size_t points_of(const char *name)
{
    const char *dash = strchr(name, '-');
    return dash ? strtoul(dash + 1, NULL, 10) : 65536;
}

struct table *make_table(const char *name, uint64_t turn)
{
    size_t letters = strcspn(name, "-.");
    uint64_t form = form_of(name);
    if (form == FORM_DIFDUP && !strncmp(name, "plain", letters))
        return plain_table(2026 + turn, points_of(name));
    for (size_t k = 0; k < sizeof spectra / sizeof *spectra; k++)
        if (form <= FORM_SQZ && strlen(spectra[k].name) == letters && !strncmp(name, spectra[k].name, letters))
            return table_of(&spectra[k], 1981 + k + 100 * turn, points_of(name), form);
    return NULL;
}

struct table *make_file_table(const char *name, uint64_t turn)
{
    return form_of(name) <= FORM_SQZ ? table_of(&spectra[0], 63 + 100 * turn, points_of(name), form_of(name)) : NULL;
}

/* Puts a text at a place of the file; the place after it. */
static size_t put_text(uint8_t *file, size_t at, const char *text)
{
    memcpy(file + at, text, strlen(text));
    return at + strlen(text);
}

struct file make_file(const struct table *t)
{
    static const char *const before[] = {
        "TITLE=drift time spectrum, synthetic", "JCAMP-DX=5.01", "DATA TYPE=ION MOBILITY SPECTRUM",
        "DATA CLASS=XYDATA", "ORIGIN=bench", "OWNER=public domain", "LONGDATE=2026/11/15", "TIME=05:48:31",
        "SOURCE REFERENCE=none $$ made by benchmark/tables.c", "SPECTROMETER/DATA SYSTEM=none", "INSTRUMENT PARAMETERS=none",
        "SAMPLE DESCRIPTION=nothing", "CAS NAME=", "CAS REGISTRY NO=", "MOLFORM=", ".IMS PRESSURE=100.5",
        ".CARRIER GAS=air", ".DRIFT GAS=air", ".ELECTRIC FIELD=(280,280)", ".ION POLARITY=POSITIVE",
        ".IONIZATION MODE=RN", ".IONIZATION ENERGY=(60)", ".IONIZATION SOURCE=Ni-63", ".SHUTTER OPENING TIME=0.3",
        ".REPETITION RATE=50", ".DRIFT CHAMBER=12", ".AVERAGES=64", ".TEMPERATURE=20", "RESOLUTION=0.02", "DELTAX=0.02",
        "XUNITS=MILLISECONDS", "YUNITS=PICOAMPERES",
    };
    char *file = memory(t->length + 8192), *p = file;
    for (size_t k = 0; k < sizeof before / sizeof *before; k++)
        p += sprintf(p, "##%s\r\n", before[k]);
    p += sprintf(p, "##XFACTOR=0.1\r\n##YFACTOR=1\r\n##FIRSTX=0\r\n##LASTX=%.2f\r\n##NPOINTS=%zu\r\n##FIRSTY=%d\r\n",
                 0.02 * ((double)t->points - 1), t->points, t->ordinates[0]);
    p += sprintf(p, "##XYDATA=(X++(Y..Y))\r\n");
    memcpy(p, t->body, t->length);
    p += t->length;
    p += sprintf(p, "##END=\r\n");
    return (struct file){(size_t)(p - file), (uint8_t *)file};
}

struct file make_compound(const char *name, uint64_t turn)
{
    struct file file = {0, memory(MOST_BYTES)};
    file.length = put_text(file.bytes, 0, "##TITLE=eight spectra\r\n##DATA TYPE=LINK\r\n##BLOCKS=8\r\n");
    for (uint64_t k = 0; k < COMPOUND_BLOCKS; k++) {
        struct file block = make_file(make_file_table(name, turn + k));
        if (file.length + block.length + 8 > MOST_BYTES)
            exit(2);
        memcpy(file.bytes + file.length, block.bytes, block.length);
        file.length += block.length;
    }
    file.length = put_text(file.bytes, file.length, "##END=\r\n");
    return file;
}

/* Fills file[at] up to file[end] with short different labels that begin alike, as many as fit; the place after them. */
static size_t put_labels(uint8_t *file, size_t at, size_t end)
{
    static const char letters[] = "ABCDEFGHIJKLM0123456789"; /* no N: END would end the file */
    for (unsigned n = 0; at + 9 <= end; n++) {
        file[at++] = '#';
        file[at++] = '#';
        file[at++] = 'A'; /* names that begin alike take longer to tell apart */
        for (unsigned rest = n, k = 0; k < 4; k++, rest /= 23)
            if (k < 1 || rest)
                file[at++] = letters[rest % 23];
        file[at++] = '=';
        file[at++] = '\n';
    }
    return at;
}

struct file make_labels(size_t length)
{
    uint8_t *file = memory(length);
    memset(file, '\n', length);
    size_t at = put_text(file, 0, "##TITLE=\n");
    put_text(file, put_labels(file, at, length - 6), "##END=");
    return (struct file){length, file};
}

struct file make_blocks(size_t length)
{
    uint8_t *file = memory(length);
    memset(file, '\n', length);
    size_t at = put_text(file, 0, "##TITLE=\n##DATATYPE=LINK\n##BLOCKS=1\n");
    for (int depth = 2; depth < 8; depth++)
        at = put_text(file, at, "##TITLE=\n##DATATYPE=LINK\n");
    at = put_text(file, at, "##TITLE=\n");
    at = put_text(file, put_labels(file, at, length / 2), "##END=\n");
    for (int depth = 2; depth < 8; depth++)
        at = put_text(file, at, "##END=\n");
    put_text(file, put_labels(file, at, length - 6), "##END=");
    return (struct file){length, file};
}
