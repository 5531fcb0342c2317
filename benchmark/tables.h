/* Synthetic ion mobility spectra for the bench: seeded, the same on every machine. */
#ifndef TABLES_H
#define TABLES_H

#include <stddef.h>
#include <stdint.h>

/* A table: its frame (abscissas in thousandths), its ordinates, its body, and the body's form (enum form). */
struct table {
    uint64_t form;
    int64_t first, last;
    size_t points, length;
    int32_t *ordinates;
    uint8_t *body;
};

/* A file. */
struct file {
    size_t length;
    uint8_t *bytes;
};

/* How many data blocks a compound file has. */
enum { COMPOUND_BLOCKS = 8 };

/*
 * Makes the table of this name (typical, quiet, noisy or plain), with 65,536 points or, as noisy-300, so many; its body
 * is in DIFDUP form or, as noisy.AFFN, in another one (that of plain is its own). NULL if there is none. Each turn has
 * other ordinates.
 */
struct table *make_table(const char *name, uint64_t turn);

/* The table of a file: the one of this name, but typical in place of `file`, with other ordinates than make_table's. */
struct table *make_file_table(const char *name, uint64_t turn);

/* Makes a file with 40 records and this table. */
struct file make_file(const struct table *table);

/* Makes a compound file of COMPOUND_BLOCKS such files, of the tables of the turns from `turn` on. */
struct file make_compound(const char *name, uint64_t turn);

/* Makes a file of so many bytes, full of short different labels that begin alike: the worst case of comparing each with all before it. */
struct file make_labels(size_t length);

/* Makes a compound file of so many bytes: half of such labels stand in a data block at depth eight, half in the outermost block after it. */
struct file make_blocks(size_t length);

#endif
