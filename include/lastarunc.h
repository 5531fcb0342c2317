/*
 * Lastarunc for C hosts: reading and writing JCAMP-DX tables (documents 000 and 001 of the project, narrowed by 01).
 *
 * Every function answers every input, and its contract, which is proved, says what it answers and what it stores.
 * A refusal stores nothing in the lent ordinates or text; an acceptance leaves the entries past N, or past the text, as
 * they were.  No function allocates, keeps a pointer, or uses more than a little stack.
 *
 * Answers.  Each function fills the struct that its last argument points to, and returns that struct's `refused`: 0 if
 * it accepts.  Every field is set by every call; what is not given is 0 (in a report, LASTARUNC_NONE where that is
 * said).  A struct may gain fields at its end in later versions, so compile with the header of the library that you
 * link.
 *
 * Refusals.  `refused` is the number, `place` the byte, from 0; both are those of document 01.  `line` and `column` are
 * where that byte stands in the text that is read, both from 1: LF, and nothing else, ends a line, and a column counts
 * bytes.  A fault at the end of the text has those where the next byte would stand; 1, 2 and 19 have byte 0, line 1,
 * column 1.  All four are 0 if the text is accepted.
 *
 * Pointers.  `p, n` lends the n entries at p: they must be readable, and writable if p is not const, for the length of
 * the call.  If n is 0, p may be any non-null pointer that is aligned for its type.  `answer` must be valid, aligned
 * and writable, `scales` valid, aligned and readable.  What is written must not overlap anything else that is lent.
 *
 * Abscissas are whole thousandths.
 */
#ifndef LASTARUNC_H
#define LASTARUNC_H

#include <stddef.h>
#include <stdint.h>

#ifdef __cplusplus
extern "C" {
#endif

/* The ordinate of a point that was not measured: `?` in a table. It is never an ordinary ordinate. */
#define LASTARUNC_MISSING INT32_MIN

/* What is answered for a record, or a block, that is absent. No refusal has this number. */
#define LASTARUNC_ABSENT INT64_C(-1)

/* The forms in which a table is written. */
enum lastarunc_form { LASTARUNC_DIFDUP = 0, LASTARUNC_AFFN = 1, LASTARUNC_PAC = 2, LASTARUNC_SQZ = 3 };

/* What lastarunc_write_form answers for a number that is no form's. No refusal has this number. */
#define LASTARUNC_NO_FORM INT64_C(-1)

/* Most points of a table, most bytes of a body or file, largest magnitude of the first and last abscissa. */
#define LASTARUNC_MOST_POINTS 65536
#define LASTARUNC_MOST_BYTES 1048576
#define LASTARUNC_LARGEST_ABSCISSA INT64_C(9999999999)

/*
 * So many bytes hold every text of so many points, in each form, and every file of them. A text in DIFDUP never has
 * more than 34 * points + 24 bytes either, which is less for one point only.
 */
#define LASTARUNC_TEXT_CEILING(points) (15 * (size_t)(points) + 44)
#define LASTARUNC_FILE_CEILING(points) (15 * (size_t)(points) + 297)

/* What lastarunc_read_table answers. */
struct lastarunc_table {
    int64_t refused, place, line, column;
    int64_t points;
};

/*
 * What lastarunc_write_table, lastarunc_write_form and lastarunc_write_file answer. The place of a writer's refusal is
 * always 0. The last three are those of struct lastarunc_file, of a file that is written; of a table they are 0.
 */
struct lastarunc_text {
    int64_t refused;
    int64_t length;
    int64_t first_exact, last_exact, firsty_exact;
};

/*
 * What lastarunc_read_file answers. The last three are 1 if the quotient was exact, 0 if it was rounded: FIRSTX and
 * LASTX over XFACTOR in thousandths, and FIRSTY over YFACTOR, which is 1 too if the first ordinate is missing, so that
 * it is not compared.
 */
struct lastarunc_file {
    int64_t refused, place, line, column;
    int64_t points, first, last;
    int64_t first_exact, last_exact, firsty_exact;
};

/* What lastarunc_find_record answers. */
struct lastarunc_record {
    int64_t refused, place, line, column;
    int64_t from, to;
};

/*
 * A data block of a file, as lastarunc_find_blocks stores it. The bytes from `from` up to, not with, `to` are the block
 * cut out as a file, TITLE to END; its records begin at `start` and end at `end`.
 */
struct lastarunc_block {
    int64_t from, to, start, end;
};

/* What lastarunc_find_blocks answers: whether the file is a compound one (1) or one data block (0), and how many. */
struct lastarunc_blocks {
    int64_t refused, place, line, column;
    int64_t compound, blocks;
};

/* The records that the ion mobility profile wants (document 001), in the order in which they are looked for. */
enum lastarunc_wanted {
    LASTARUNC_JCAMP_DX,
    LASTARUNC_DATA_TYPE,
    LASTARUNC_DATA_CLASS,
    LASTARUNC_ORIGIN,
    LASTARUNC_OWNER,
    LASTARUNC_IMS_PRESSURE,
    LASTARUNC_CARRIER_GAS,
    LASTARUNC_DRIFT_GAS,
    LASTARUNC_ELECTRIC_FIELD,
    LASTARUNC_ION_POLARITY,
    LASTARUNC_IONIZATION_MODE,
    LASTARUNC_IMS_TEMPERATURE,
    LASTARUNC_SHUTTER_OPENING_TIME,
    LASTARUNC_XUNITS,
    LASTARUNC_YUNITS,
    LASTARUNC_WANTED /* how many they are */
};

/* Where a text is shown: bytes `from` up to, not with, `to`, of the file, or of the page if on_page is 1. */
struct lastarunc_shown {
    int64_t on_page, from, to;
};

/* What lastarunc_read_profile answers: as struct lastarunc_file, and whether a refusal counts in the page (1). */
struct lastarunc_profile {
    int64_t refused, place, line, column;
    int64_t points, first, last;
    int64_t first_exact, last_exact, firsty_exact;
    int64_t on_page;
};

/*
 * How far a walk over a spool has come: all 0 at its start. The last four are the totals of the files accepted so far.
 */
struct lastarunc_progress {
    int64_t at, seen;
    int64_t files, points, missing, sum;
};

/* What lastarunc_next_report answers. LASTARUNC_NONE stands for no lowest, highest or faintest ordinate. */
#define LASTARUNC_NONE INT64_C(-2147483648)
struct lastarunc_report {
    int64_t refused, place, line, column;
    int64_t ended;
    int64_t points, missing, lowest, highest, sum, faintest;
};

/* A decimal: mantissa times ten to the exponent. */
struct lastarunc_decimal {
    int64_t mantissa, exponent;
};

/* The numbers of a file that lastarunc_write_file writes. */
struct lastarunc_scales {
    struct lastarunc_decimal xfactor, yfactor, firstx, lastx, firsty;
};

/*
 * Reads the body of an XYDATA table with the frame first, last, points.
 * Accepted: answer->points is the number of points, and out[0] to out[points - 1] are the ordinates.
 * Refused, 1 to 13 or 16: place, line and column count in the body, and out is as it was.
 */
int64_t lastarunc_read_table(int64_t first, int64_t last, size_t points, const uint8_t *body, size_t body_len,
                             int32_t *out, size_t out_len, struct lastarunc_table *answer);

/*
 * The same as lastarunc_read_table, to the last lent entry, by the plain engine: it expands each line to a row of
 * actual ordinates, then makes the checks row by row, then lays the rows one after another. It is there to be read; the
 * other is faster.
 */
int64_t lastarunc_read_plain(int64_t first, int64_t last, size_t points, const uint8_t *body, size_t body_len,
                             int32_t *out, size_t out_len, struct lastarunc_table *answer);

/*
 * Writes the first `points` of the n ordinates lent as a table body in DIFDUP form.
 * Accepted: answer->length is the number of bytes of the text, and they stand from text[0] on.
 * Refused, 1, 2 or 15: text is as it was.
 * 15 bytes for each point and 44 more hold every text; with less room the text is measured first, which takes about
 * half as long again.
 */
int64_t lastarunc_write_table(int64_t first, int64_t last, size_t points, const int32_t *ordinates, size_t n,
                              uint8_t *text, size_t room, struct lastarunc_text *answer);

/*
 * Writes a table body as lastarunc_write_table does, in the form with this number (enum lastarunc_form). In AFFN, PAC
 * and SQZ each value is written in full, as many on a line as fit: AFFN has a space before every value, PAC before
 * those that are not negative and not missing, SQZ has none. Each form's text is read by lastarunc_read_table.
 * Accepted and refused as lastarunc_write_table, which is this function with LASTARUNC_DIFDUP; 15 bytes for each point
 * and 44 more hold every text of every form.
 * No form has this number: answer->refused is LASTARUNC_NO_FORM, its length 0, and text is as it was; nothing else is
 * looked at.
 */
int64_t lastarunc_write_form(uint64_t form, int64_t first, int64_t last, size_t points, const int32_t *ordinates,
                             size_t n, uint8_t *text, size_t room, struct lastarunc_text *answer);

/*
 * The exact length of the text that lastarunc_write_form would write, before it is written.
 * Accepted: answer->length; that many bytes hold the text, and with one byte less it is refused with 15.
 * Refused as lastarunc_write_form, but never with 15.
 * LASTARUNC_TEXT_CEILING(points) bytes hold every text of every form, so that nothing need be measured.
 */
int64_t lastarunc_text_length(uint64_t form, int64_t first, int64_t last, size_t points, const int32_t *ordinates,
                              size_t n, struct lastarunc_text *answer);

/*
 * Reads a simple JCAMP-DX file, from TITLE to END, with one XYDATA table.
 * Accepted: answer->points, first and last are the table's frame, and out[0] to out[answer->points - 1] are the
 * ordinates.
 * Refused, 1 to 13, 16 or 19 to 29: place, line and column count in the file, and out is as it was.
 */
int64_t lastarunc_read_file(const uint8_t *file, size_t file_len, int32_t *out, size_t out_len,
                            struct lastarunc_file *answer);

/*
 * Writes a simple JCAMP-DX file with this title, these numbers and the first `points` of the n ordinates lent: TITLE,
 * XFACTOR, YFACTOR, FIRSTX, LASTX, NPOINTS, FIRSTY, XYDATA, the table in DIFDUP form, END, each line ended by CR LF.
 * The frame's first and last are FIRSTX/XFACTOR and LASTX/XFACTOR in thousandths, rounded as lastarunc_read_file rounds
 * them. A decimal is spelled as it is given: mantissa, `E`, sign, two digits, as `10E-01` or `0E+07`.
 * Accepted: answer->length is the number of bytes of the file, and they stand from text[0] on. lastarunc_read_file
 * accepts them, and gives the same points, first, last and ordinates.
 * Refused: text is as it was. The numbers, in the order in which they are looked for:
 *     37   the title is over 72 bytes, has a byte outside 32 to 126, or has `$$`
 *     26   a mantissa has over 9 digits, an exponent is over 99 in magnitude, or a factor is not above zero
 *     28   first or last is beyond LASTARUNC_LARGEST_ABSCISSA
 *     1    the frame is outside its limits
 *     2    n is less than points
 *     29   FIRSTY/YFACTOR, rounded to a whole number, is not the first ordinate; not looked for if that is missing
 *     15   the file is longer than room
 * 15 bytes for each point and 297 more hold every file.
 */
int64_t lastarunc_write_file(const uint8_t *title, size_t title_len, size_t points,
                             const struct lastarunc_scales *scales, const int32_t *ordinates, size_t n, uint8_t *text,
                             size_t room, struct lastarunc_text *answer);

/*
 * The exact length of the file that lastarunc_write_file would write, before it is written.
 * Accepted and refused as lastarunc_text_length; LASTARUNC_FILE_CEILING(points) bytes hold every file.
 */
int64_t lastarunc_file_length(const uint8_t *title, size_t title_len, size_t points,
                              const struct lastarunc_scales *scales, const int32_t *ordinates, size_t n,
                              struct lastarunc_text *answer);

/*
 * Finds the record with this name; names are compared as labels are, in upper case without blanks, `-`, `/` and `_`.
 * Found: its text is the bytes answer->from up to, not with, answer->to of the file.
 * Absent: answer->refused is LASTARUNC_ABSENT, and every other field 0.
 * The file's labels are refused, 19 to 24: place, line and column count in the file.
 */
int64_t lastarunc_find_record(const uint8_t *file, size_t file_len, const uint8_t *name, size_t name_len,
                              struct lastarunc_record *answer);

/*
 * Finds the data blocks of a file, simple or compound. A compound file's outermost block has the DATA TYPE LINK; its
 * blocks may be nested to a depth of eight.
 * Accepted: answer->blocks is the number of data blocks, and blocks[0], blocks[1] .. are these, in the order of the
 * file, as many as there is memory for: `numbers` is four for each block that is lent. The others are as they were. A
 * simple file is one data block.
 * Refused: place, line and column count in the file, and every block is as it was. The numbers:
 *     19   the file is too long
 *     21   TITLE is not first
 *     then, in one walk over the labels:
 *     20   a label without `=`, or too long
 *     22   a block has no END
 *     24   a TITLE at depth nine, or in a block that has not said that it is LINK
 *     23   a label twice in its own block
 *     33   a LINK block has a table
 *     then, of a compound file:
 *     25   BLOCKS is absent from the outermost block
 *     32   BLOCKS is not the number of data blocks, or not spelled in digits
 */
int64_t lastarunc_find_blocks(const uint8_t *file, size_t file_len, struct lastarunc_block *blocks, size_t numbers,
                              struct lastarunc_blocks *answer);

/*
 * Reads a data block that lastarunc_find_blocks has found in this file: from its records, as lastarunc_read_file reads
 * a file from them. Cut out, the block is read by lastarunc_read_file just so, its places less block->from.
 * Accepted: as lastarunc_read_file.
 * Refused, 1 to 13, 16 or 25 to 29: place, line and column count in the whole file, and out is as it was; 19 if the
 * file is too long.
 * Any other numbers in *block: LASTARUNC_ABSENT if they are no places of the file, otherwise what stands between them
 * is read as a block's records. Nothing outside what is lent is ever touched.
 */
int64_t lastarunc_read_block(const uint8_t *file, size_t file_len, const struct lastarunc_block *block, int32_t *out,
                             size_t out_len, struct lastarunc_file *answer);

/*
 * Finds the record with this name in a data block that lastarunc_find_blocks has found, its TITLE too, and answers as
 * lastarunc_find_record does; the refusals 19 to 24 do not occur but for 19.
 */
int64_t lastarunc_find_in_block(const uint8_t *file, size_t file_len, const struct lastarunc_block *block,
                                const uint8_t *name, size_t name_len, struct lastarunc_record *answer);

/*
 * Reads a simple file as lastarunc_read_file does, and wants the fifteen records of the ion mobility profile, with the
 * words that document 001 lists. A record's text is taken from the file if that has the record, be it empty, and
 * otherwise from the site's page: a run of records without TITLE and END, of which the first with a name counts.
 * Accepted: as lastarunc_read_file, and shown[LASTARUNC_ORIGIN] and so on say where the fifteen texts stand.
 * Refused: out and shown are as they were. What lastarunc_read_file refuses is refused so; then
 *     30   a record is absent from both; place, line and column are those of the file's END
 *     31   a text is no listed word; place, line and column are the word's, or the text's end if it has none, in the
 *          page if answer->on_page is 1, otherwise in the file
 */
int64_t lastarunc_read_profile(const uint8_t *file, size_t file_len, const uint8_t *page, size_t page_len, int32_t *out,
                               size_t out_len, struct lastarunc_shown shown[LASTARUNC_WANTED],
                               struct lastarunc_profile *answer);

/*
 * The next report of a night: a spool is at most 1,000 files, before each the bytes 4A and 44 (hexadecimal) and its
 * length in three bytes, high byte first. *progress starts as zeros; each call reads one file, as lastarunc_read_file
 * does into out, and goes on to the next.
 * Accepted (answer->refused 0, ended 0): answer->points, missing, lowest, highest and sum of the file, and faintest:
 * the smallest magnitude of its ordinates that are neither zero nor missing. LASTARUNC_NONE where there is none.
 * Refused, ended 0: the file is, as lastarunc_read_file refuses it; out is as it was; the walk goes on.
 * Ended 1: the walk is over, *progress is as it was and has the totals: files, points, missing and sum over the
 * accepted files. answer->refused is 0 if the spool ended with a file, otherwise, at the place of the record in the
 * spool,
 *     36   there are more than 1,000 files
 *     35   fewer than five bytes are left, or the file's length goes past the end
 *     34   the record does not begin with 4A 44
 *     -1   *progress is none that a walk over this spool can have
 */
int64_t lastarunc_next_report(const uint8_t *spool, size_t spool_len, int32_t *out, size_t out_len,
                              struct lastarunc_progress *progress, struct lastarunc_report *answer);

/*
 * Converts the body of an old table in place: each tab outside a comment becomes a space, every other byte stays. Then
 * lastarunc_read_table reads it as it read the body before tabs were refused, with the same number, place, line, column
 * and ordinates.
 */
void lastarunc_detab_table(uint8_t *body, size_t body_len);

/*
 * Converts the body of an old file's table in place, and no other byte. Returns 1, or 0 if there is no body to be found
 * (the labels are refused, one of the seven records is absent, or XYDATA's list is not there), and then nothing
 * changes. A data block of a compound file is converted so too, from its `from` to its `to`.
 */
int64_t lastarunc_detab_file(uint8_t *file, size_t file_len);

#ifdef __cplusplus
}
#endif

#endif
