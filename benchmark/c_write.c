/* Writers of table bodies with all checks of document 01, in plain C: DIFDUP, and the plain forms of T-02. */
#include "c_table.h"

#include <string.h>

/* The pseudo-digits for 0 to 9, of numbers that are not negative and of negative ones; a space stands for none. */
static const char sqz[2][11] = {"@ABCDEFGHI", " abcdefghi"};
static const char dif[2][11] = {"%JKLMNOPQR", " jklmnopqr"};
static const char dup[11] = " STUVWXYZs";

/* The number of decimal digits of v; small numbers are by far the most. */
ALWAYS_INLINE unsigned digit_count(uint32_t v)
{
    unsigned n = 1;
    for (; UNLIKELY(v >= 10000); v /= 10000)
        n += 4;
    return v < 10 ? n : v < 100 ? n + 1 : v < 1000 ? n + 2 : n + 3;
}

/* The numbers 0 to 99 in two digits each. */
static const char pairs[] = "00010203040506070809101112131415161718192021222324252627282930313233343536373839"
                            "40414243444546474849505152535455565758596061626364656667686970717273747576777879"
                            "8081828384858687888990919293949596979899";

/* Puts v, which has n digits, at `to`, two digits at a time from the last ones on. */
ALWAYS_INLINE void put_digits(uint8_t *to, uint32_t v, unsigned n)
{
    uint8_t *p = to + n;
    for (; v >= 100; v /= 100)
        memcpy(p -= 2, pairs + 2 * (v % 100), 2);
    if (v >= 10)
        memcpy(p - 2, pairs + 2 * v, 2);
    else
        p[-1] = (uint8_t)('0' + v);
}

/* Puts v, which has n digits, at `to`, the first one by a row of pseudo-digits. */
ALWAYS_INLINE void put_pseudo(uint8_t *to, uint32_t v, unsigned n, const char *row)
{
    put_digits(to, v, n);
    *to = (uint8_t)row[*to - '0'];
}

/* The magnitude of an ordinate or a difference, which fits in 32 bits. */
ALWAYS_INLINE uint32_t magnitude(int64_t v)
{
    return (uint32_t)(v < 0 ? -v : v);
}

/* Puts the head of point i, if `to` is not null; returns its length. */
static unsigned put_head(const struct frame *f, int64_t i, uint8_t *to)
{
    int64_t h = f->first;
    if (f->points > 1) {
        int64_t steps = f->points - 1;
        int64_t above = 2 * i * (f->last - f->first) + steps;
        h += above / (2 * steps) - (above % (2 * steps) < 0); /* rounded down */
    }
    uint32_t whole = (uint32_t)((h < 0 ? -h : h) / 1000), part = (uint32_t)((h < 0 ? -h : h) % 1000);
    unsigned minus = h < 0, n = digit_count(whole);
    unsigned places = part == 0 ? 0 : part % 10 ? 3 : part % 100 ? 2 : 1;
    if (to) {
        *to = '-';
        put_digits(to + minus, whole, n);
        if (places) {
            part += 1000; /* for the leading zeros; the point goes over the 1 */
            put_digits(to + minus + n, places == 3 ? part : places == 2 ? part / 10 : part / 100, places + 1);
            to[minus + n] = '.';
        }
    }
    return minus + n + (places ? places + 1 : 0);
}

/* Puts v, which is below 10,000, at `to`, the first digit by a row of pseudo-digits; returns how many it has. */
ALWAYS_INLINE unsigned put_small(uint8_t *to, uint32_t v, const char *row)
{
    if (v < 10) {
        to[0] = (uint8_t)row[v];
        return 1;
    }
    if (v < 100) {
        to[0] = (uint8_t)row[v / 10];
        to[1] = (uint8_t)('0' + v % 10);
        return 2;
    }
    if (v < 1000) {
        to[0] = (uint8_t)row[v / 100];
        memcpy(to + 1, pairs + 2 * (v % 100), 2);
        return 3;
    }
    to[0] = (uint8_t)row[v / 1000];
    to[1] = (uint8_t)('0' + v / 100 % 10);
    memcpy(to + 2, pairs + 2 * (v % 100), 2);
    return 4;
}

/*
 * Lays out the differences from *next on that are below 10,000 and are not repeated, while four bytes more fit in the
 * line and another point follows, and stores them if asked to; returns the place after them. Where nothing is stored
 * their digits are counted without a jump. Whatever else comes is left to the caller.
 */
ALWAYS_INLINE size_t put_row(const int32_t **next, const int32_t *end, uint8_t *text, size_t at, size_t full,
                             bool storing)
{
    const int32_t *q = *next;
    int64_t value = (int64_t)q[0] - q[-1];
    for (; end - q >= 2 && at + 4 <= full; q++) {
        int64_t after = (int64_t)q[1] - q[0];
        uint32_t v = magnitude(value);
        if ((uint64_t)(value + 9999) > 2 * 9999 || value == after || *q == MISSING_ORDINATE)
            break;
        at += storing ? put_small(text + at, v, dif[value < 0]) : 1u + (v >= 10) + (v >= 100) + (v >= 1000);
        value = after;
    }
    *next = q;
    return at;
}

/*
 * Counts the groups of differences from *next on point by point, without a jump on whether a difference is the one
 * before it: where differences repeat, no processor foresees which do. Leaves the last group, which may go on, does not
 * fit in the line or is no common one, to the caller; returns the place before it.
 */
ALWAYS_INLINE size_t count_row(const int32_t **next, const int32_t *end, size_t at, size_t full)
{
    const int32_t *q = *next;
    size_t start = at; /* the group's */
    size_t more = 0;   /* its points after the first */
    int64_t value = (int64_t)q[0] - q[-1];
    at += digit_count(magnitude(value));
    while (end - q >= 2 && at <= full && more < 98) {
        int64_t after = (int64_t)q[1] - q[0];
        uint32_t v = magnitude(after);
        if ((uint64_t)(after + 9999) > 2 * 9999 || q[1] == MISSING_ORDINATE)
            break;
        const size_t again = -(size_t)(after == value); /* all bits or none: a choice by `?:` becomes a jump */
        const size_t width = 1u + (v >= 10) + (v >= 100) + (v >= 1000), copy = (more == 0) + (more == 8);
        start = (start & again) | (at & ~again);
        at += (copy & again) | (width & ~again);
        more = (more + 1) & again;
        value = after;
        q++;
    }
    *next = q - more;
    return start;
}

/* Lays out the whole text in DIFDUP form, stores it if asked to, and returns its length. */
ALWAYS_INLINE size_t lay_out_difdup(const struct frame *f, const int32_t *restrict y, bool storing,
                                    uint8_t *restrict text)
{
    const int32_t *const end = y + f->points;
    const int32_t *next = y;        /* the next point */
    enum { PLAIN, GAP, SLOPE } form; /* that of the value before */
    bool check = false;             /* the line before ended in DIF form */
    size_t start = 0;               /* where the line starts */

    while (next < end || check) {
        size_t at = start + put_head(f, next - y - check, storing ? text + start : NULL);
        const size_t full = start + LONGEST_LINE;
        form = GAP; /* a line starts as if a point were missing before it */
        if (check) {
            unsigned n = digit_count(magnitude(next[-1]));
            if (storing)
                put_pseudo(text + at, magnitude(next[-1]), n, sqz[next[-1] < 0]);
            at += n;
            form = PLAIN;
        }
        while (next < end) {
            if (form != GAP) {
                const int32_t *before = next;
                at = put_row(&next, end, text, at, full, storing);
                if (!storing && end - next >= 2 && *next != MISSING_ORDINATE
                    && (int64_t)next[1] - next[0] == (int64_t)next[0] - next[-1])
                    at = count_row(&next, end, at, full);
                if (next != before)
                    form = SLOPE;
            }
            const int32_t *after = next + 1; /* the point after the group */
            const char *row = "?";
            int64_t value = 0;
            unsigned more = 0; /* digits of the group's DUP */
            if (*next == MISSING_ORDINATE) {
                while (after < end && *after == MISSING_ORDINATE)
                    after++;
            } else if (form == GAP) {
                value = *next;
                row = sqz[value < 0];
            } else {
                value = (int64_t)next[0] - next[-1];
                while (after < end && (int64_t)after[0] - after[-1] == value && *after != MISSING_ORDINATE)
                    after++;
                row = dif[value < 0];
            }
            unsigned lead = digit_count(magnitude(value));
            if (after - next > 1)
                more = digit_count((uint32_t)(after - next));
            if (at + lead + more > full)
                break;
            if (storing) {
                put_pseudo(text + at, magnitude(value), lead, row);
                if (more)
                    put_pseudo(text + at + lead, (uint32_t)(after - next), more, dup);
            }
            at += lead + more;
            form = *next == MISSING_ORDINATE ? GAP : form == GAP ? PLAIN : SLOPE;
            next = after;
        }
        if (storing)
            memcpy(text + at, "\r\n", 2);
        start = at + 2;
        check = form == SLOPE;
    }
    return start;
}

/*
 * The number of decimal digits of a value in full. Such values have any length, so it is found without a jump: the
 * entry for v's highest bit, added to v, has the number in its high half.
 */
ALWAYS_INLINE unsigned full_digit_count(uint32_t v)
{
#define D(count, least) (((uint64_t)(count) << 32) - (least))
    static const uint64_t entries[32] = {
        D(1, 0), D(1, 0), D(1, 0), D(2, 10),
        D(2, 0), D(2, 0), D(3, 100),
        D(3, 0), D(3, 0), D(4, 1000),
        D(4, 0), D(4, 0), D(4, 0), D(5, 10000),
        D(5, 0), D(5, 0), D(6, 100000),
        D(6, 0), D(6, 0), D(7, 1000000),
        D(7, 0), D(7, 0), D(7, 0), D(8, 10000000),
        D(8, 0), D(8, 0), D(9, 100000000),
        D(9, 0), D(9, 0), D(10, 1000000000),
        D(10, 0), D(10, 0),
    };
#undef D
    return (unsigned)((v + entries[31 ^ __builtin_clz(v | 1)]) >> 32);
}

/* The length of a value in a plain form. */
ALWAYS_INLINE unsigned value_length(enum form form, int32_t y)
{
    if (UNLIKELY(y == MISSING_ORDINATE))
        return form == FORM_AFFN ? 2 : 1;
    return full_digit_count(magnitude(y)) + (form == FORM_AFFN ? 1 + (y < 0) : form == FORM_PAC ? 1 : 0);
}

/* Puts a value of that length in a plain form. */
ALWAYS_INLINE void put_value(enum form form, int32_t y, uint8_t *to, unsigned length)
{
    if (UNLIKELY(y == MISSING_ORDINATE)) {
        to[0] = ' ';
        to[length - 1] = '?';
    } else if (form == FORM_SQZ) {
        put_pseudo(to, magnitude(y), length, sqz[y < 0]);
    } else if (form == FORM_PAC) {
        to[0] = y < 0 ? '-' : ' ';
        put_digits(to + 1, magnitude(y), length - 1);
    } else {
        to[0] = ' ';
        to[1] = '-'; /* the first digit goes over it if there is no minus */
        put_digits(to + 1 + (y < 0), magnitude(y), length - 1 - (y < 0));
    }
}

/* Lays out the whole text in a plain form, stores it if asked to, and returns its length. */
ALWAYS_INLINE size_t lay_out_plain(enum form form, const struct frame *f, const int32_t *restrict y, bool storing,
                                   uint8_t *restrict text)
{
    const int32_t *const end = y + f->points;
    const int32_t *next = y; /* the next point */
    size_t at = 0;
    while (next < end) {
        const size_t full = at + LONGEST_LINE;
        at += put_head(f, next - y, storing ? text + at : NULL);
        for (; next < end; next++) {
            unsigned length = value_length(form, *next);
            if (at + length > full)
                break;
            if (storing)
                put_value(form, *next, text + at, length);
            at += length;
        }
        if (storing)
            memcpy(text + at, "\r\n", 2);
        at += 2;
    }
    return at;
}

/* Lays out the whole text, by code of its own for each form. */
ALWAYS_INLINE size_t lay_out(uint64_t form, const struct frame *f, const int32_t *restrict y, bool storing,
                             uint8_t *restrict text)
{
    switch (form) {
    case FORM_AFFN:
        return lay_out_plain(FORM_AFFN, f, y, storing, text);
    case FORM_PAC:
        return lay_out_plain(FORM_PAC, f, y, storing, text);
    case FORM_SQZ:
        return lay_out_plain(FORM_SQZ, f, y, storing, text);
    default:
        return lay_out_difdup(f, y, storing, text);
    }
}

static size_t measure(uint64_t form, const struct frame *f, const int32_t *y)
{
    return lay_out(form, f, y, false, NULL);
}

static size_t put_text(uint64_t form, const struct frame *f, const int32_t *restrict y, uint8_t *restrict text)
{
    return lay_out(form, f, y, true, text);
}

/* Refusals 1 and 2; 0 if there is none. */
ALWAYS_INLINE uint64_t judge_table(int64_t first, int64_t last, size_t points, size_t n)
{
    if (!c_frame_in_limits(first, last, points))
        return 1;
    return n < points ? 2 : 0;
}

uint64_t c_write_form(uint64_t form, int64_t first, int64_t last, size_t points, const int32_t *ordinates, size_t n,
                      uint8_t *text, size_t room, uint64_t *length)
{
    *length = 0;
    if (form > FORM_SQZ)
        return UINT64_MAX;
    uint64_t number = judge_table(first, last, points, n);
    if (number)
        return number;
    struct frame f = {first, last, (int64_t)points};
    if (measure(form, &f, ordinates) > room)
        return 15;
    *length = put_text(form, &f, ordinates, text);
    return 0;
}

uint64_t c_write_form_unchecked(uint64_t form, int64_t first, int64_t last, size_t points, const int32_t *ordinates,
                                size_t n, uint8_t *text, size_t room, uint64_t *length)
{
    (void)n;
    (void)room;
    *length = 0;
    if (form > FORM_SQZ)
        return UINT64_MAX;
    struct frame f = {first, last, (int64_t)points};
    *length = put_text(form, &f, ordinates, text);
    return 0;
}

uint64_t c_text_length(uint64_t form, int64_t first, int64_t last, size_t points, const int32_t *ordinates, size_t n,
                       uint8_t *text, size_t room, uint64_t *length)
{
    (void)text, (void)room;
    *length = 0;
    if (form > FORM_SQZ)
        return UINT64_MAX;
    uint64_t number = judge_table(first, last, points, n);
    if (!number)
        *length = measure(form, &(struct frame){first, last, (int64_t)points}, ordinates);
    return number;
}

uint64_t c_write_table(int64_t first, int64_t last, size_t points, const int32_t *ordinates, size_t n, uint8_t *text,
                       size_t room, uint64_t *length)
{
    return c_write_form(FORM_DIFDUP, first, last, points, ordinates, n, text, room, length);
}

uint64_t c_write_table_unchecked(int64_t first, int64_t last, size_t points, const int32_t *ordinates, size_t n,
                                 uint8_t *text, size_t room, uint64_t *length)
{
    return c_write_form_unchecked(FORM_DIFDUP, first, last, points, ordinates, n, text, room, length);
}
