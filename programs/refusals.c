/* What each refusal means. Up to 29 a reader's words are those of crates/refusal_words; programs/run compares them. */
#include "programs.h"

/* What a number means to those who read a file. */
static const char *const read_words[] = {
    [1] = "the frame or the body is outside its limits",
    [2] = "there are more points than there is room for",
    [3] = "this byte cannot stand here",
    [4] = "a line must begin with a head: sign, 1 to 7 digits, a point and 0 to 3 digits",
    [5] = "this value is misspelled, or a digit stands directly after ?",
    [6] = "this head is not the abscissa of its point",
    [7] = "no value follows this head",
    [8] = "a difference or a repeat cannot stand here, or repeats fewer than 2",
    [9] = "this value gives an ordinate out of range",
    [10] = "the first value of this line does not equal the last ordinate before it",
    [11] = "more points than NPOINTS says",
    [12] = "fewer points than NPOINTS says",
    [13] = "the last line ends in difference form, and no check line follows",
    [16] = "this line has more than 80 bytes",
    [19] = "the file is too long",
    [20] = "this label has no =, or its name is too long",
    [21] = "TITLE must be the first label",
    [22] = "there is no END",
    [23] = "this label stands twice",
    [24] = "TITLE stands again before END",
    [25] = "one of XFACTOR, YFACTOR, FIRSTX, LASTX, NPOINTS, FIRSTY, XYDATA is absent",
    [26] = "this number is misspelled or outside its rule",
    [27] = "the list after XYDATA= is not (X++(Y..Y))",
    [28] = "FIRSTX or LASTX divided by XFACTOR is beyond its limit",
    [29] = "the first ordinate does not agree with FIRSTY divided by YFACTOR",
    [30] = "a record that the profile wants is neither in the file nor on the page",
    [31] = "this text is none of the words that are listed for it",
    [32] = "BLOCKS is not the number of data blocks, or not spelled in digits",
    [33] = "a LINK block has a table",
    [34] = "this record does not begin with the mark 4A 44",
    [35] = "the spool ends within this record",
    [36] = "there are more than 1,000 files",
};

/* What a number means to those who write. */
static const char *const write_words[] = {
    [1] = "the frame is outside its limits: 1 to 65,536 points; first and last abscissa differ (for one point they are "
          "equal), at most 9,999,999.999 in magnitude",
    [2] = "there are fewer ordinates than points",
    [15] = "the text does not fit",
    [26] = "a number has over 9 digits or an exponent over 99, or a factor is not above zero",
    [28] = "FIRSTX or LASTX divided by XFACTOR is beyond 9,999,999.999",
    [29] = "the first ordinate does not agree with FIRSTY divided by YFACTOR",
    [37] = "the title has over 72 bytes, a byte outside 32 to 126, or $$",
};

/* The words of a number, or that there are none. */
static const char *words_of(const char *const *words, size_t count, int64_t number)
{
    const char *found = number >= 0 && (size_t)number < count ? words[number] : NULL;
    return found ? found : "this number has no words yet";
}

const char *meaning(int64_t number)
{
    return words_of(read_words, sizeof read_words / sizeof *read_words, number);
}

const char *compound_meaning(int64_t number)
{
    if (number == 24)
        return "a block cannot begin here: the one around it has not said that it is LINK, or there are nine in one "
               "another";
    if (number == 25)
        return "BLOCKS is absent from the outermost block";
    return meaning(number);
}

const char *written_meaning(int64_t number)
{
    return words_of(write_words, sizeof write_words / sizeof *write_words, number);
}
