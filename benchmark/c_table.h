/*
 * Hand-written C readers and writers of table bodies, for comparison with the proved library. They take what
 * lastarunc_read_table, lastarunc_write_table and lastarunc_write_form of include/lastarunc.h take, and answer without
 * line and column.
 */
#ifndef C_TABLE_H
#define C_TABLE_H

#include <stdbool.h>
#include <stddef.h>
#include <stdint.h>

/* A reader of table bodies: returns 0 and *place = N, or the refusal number and *place = its place. */
typedef uint64_t table_reader(int64_t first, int64_t last, size_t points, const uint8_t *body, size_t body_len,
                              int32_t *out, size_t out_len, uint64_t *place);

/* A writer of table bodies: returns 0 and *length, or the refusal number and *length = 0. */
typedef uint64_t table_writer(int64_t first, int64_t last, size_t points, const int32_t *ordinates, size_t n,
                              uint8_t *text, size_t room, uint64_t *length);

/* All checks, two passes by the same code: the first answers, the second stores. */
table_reader c_read_table;

/* All checks in a first pass, then c_unchecked's plain decoder stores what is known to be right. */
table_reader c_read_table_then_decode;

/* All checks, one pass into scratch memory for 65,536 ordinates, then a copy. */
table_reader c_read_table_scratch;

/* No checks at all, one pass: for bodies that are known to be right. */
table_reader c_read_table_unchecked;

/* All checks, two passes by the same code: the first measures, the second stores. */
table_writer c_write_table;

/* No checks of room, one pass: for a text that is known to fit. */
table_writer c_write_table_unchecked;

/* The forms in which a table is written. */
enum form { FORM_DIFDUP, FORM_AFFN, FORM_PAC, FORM_SQZ };

/* A writer of table bodies in any of the forms; a form that is none of them gets UINT64_MAX and *length = 0. */
typedef uint64_t form_writer(uint64_t form, int64_t first, int64_t last, size_t points, const int32_t *ordinates,
                             size_t n, uint8_t *text, size_t room, uint64_t *length);

/* The same two for every form: c_write_table's checks and two passes, and none and one pass. */
form_writer c_write_form;
form_writer c_write_form_unchecked;

/* c_write_form's first pass alone: *length is what the text would have; text and room are not used. */
form_writer c_text_length;

/* What a byte is: its kind in the high four bits, its digit in the low four. */
enum kind { DIGIT, SQZ, SQZ_MINUS, DIF, DIF_MINUS, DUP, MISSING, PLUS, MINUS, BLANK, LF, CR, DOLLAR, POINT, OUTSIDE };
extern const uint8_t c_kinds[256];

/* The frame of a table: abscissas in thousandths. */
struct frame {
    int64_t first, last, points;
};

/* Whether the frame keeps its limits. */
bool c_frame_in_limits(int64_t first, int64_t last, size_t points);

#define ALWAYS_INLINE static inline __attribute__((always_inline))
#define UNLIKELY(x) __builtin_expect(!!(x), 0)

enum { MOST_POINTS = 65536, MOST_BYTES = 1048576, LONGEST_LINE = 80 };
#define LARGEST_ORDINATE INT64_C(2147483647)
#define MISSING_ORDINATE INT32_MIN

#endif
