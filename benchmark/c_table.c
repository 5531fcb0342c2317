/* Readers of table bodies with all checks of documents 01 and 02 (T-03, T-06), in plain C. */
#include "c_table.h"

#include <string.h>

#define K(kind, digit) ((kind) << 4 | (digit))
#define RUN9(first, kind, from)                                                                                        \
    [(first) + 0] = K(kind, from), [(first) + 1] = K(kind, from + 1), [(first) + 2] = K(kind, from + 2),               \
    [(first) + 3] = K(kind, from + 3), [(first) + 4] = K(kind, from + 4), [(first) + 5] = K(kind, from + 5),           \
    [(first) + 6] = K(kind, from + 6), [(first) + 7] = K(kind, from + 7), [(first) + 8] = K(kind, from + 8)

/* The byte table; every byte that is not named is outside the alphabet. */
#pragma GCC diagnostic push
#pragma GCC diagnostic ignored "-Woverride-init"
const uint8_t c_kinds[256] = {
    [0 ... 255] = K(OUTSIDE, 0),
    ['0'] = K(DIGIT, 0),
    RUN9('1', DIGIT, 1),
    ['@'] = K(SQZ, 0),
    RUN9('A', SQZ, 1),
    RUN9('a', SQZ_MINUS, 1),
    ['%'] = K(DIF, 0),
    RUN9('J', DIF, 1),
    RUN9('j', DIF_MINUS, 1),
    [83] = K(DUP, 1), /* S to Z, and s */
    [84] = K(DUP, 2),
    [85] = K(DUP, 3),
    [86] = K(DUP, 4),
    [87] = K(DUP, 5),
    [88] = K(DUP, 6),
    [89] = K(DUP, 7),
    [90] = K(DUP, 8),
    [115] = K(DUP, 9),
    ['?'] = K(MISSING, 0),
    ['+'] = K(PLUS, 0),
    ['-'] = K(MINUS, 0),
    [' '] = K(BLANK, 0),
    ['\n'] = K(LF, 0),
    ['\r'] = K(CR, 0),
    ['$'] = K(DOLLAR, 0),
    ['.'] = K(POINT, 0),
};
#pragma GCC diagnostic pop

bool c_frame_in_limits(int64_t first, int64_t last, size_t points)
{
    const int64_t most = INT64_C(9999999999);
    return first >= -most && first <= most && last >= -most && last <= most && points >= 1 && points <= MOST_POINTS
        && (points == 1) == (first == last);
}

/* The text that is being read. */
struct text {
    const uint8_t *start, *end;
};

ALWAYS_INLINE bool is_digit(const uint8_t *p, const uint8_t *end)
{
    return p < end && (uint8_t)(*p - '0') <= 9;
}

ALWAYS_INLINE bool is_blank(uint8_t byte)
{
    return byte == ' ';
}

/* The end of the line that p stands at the end of: after its comment and LF or CR LF; NULL if something else is there. */
static const uint8_t *line_end(const uint8_t *p, const uint8_t *end)
{
    if (p == end)
        return p;
    if (*p == '\n')
        return p + 1;
    if (*p == '\r' && p + 1 < end && p[1] == '\n')
        return p + 2;
    if (*p == '$' && p + 1 < end && p[1] == '$') {
        const uint8_t *lf = memchr(p, '\n', (size_t)(end - p));
        return lf ? lf + 1 : end;
    }
    return NULL;
}

/* Whether the line at p has more than 80 bytes, LF or CR LF not counted. */
static bool line_is_long(const uint8_t *p, const uint8_t *end)
{
    size_t left = (size_t)(end - p);
    const uint8_t *lf = memchr(p, '\n', left < LONGEST_LINE + 2 ? left : LONGEST_LINE + 2);
    if (!lf)
        return left > LONGEST_LINE;
    return lf - p - (lf > p && lf[-1] == '\r') > LONGEST_LINE;
}

/* A head: its end (NULL if it is misspelled), its value and the unit of its last written place, both in thousandths. */
struct head {
    const uint8_t *end;
    int64_t thousandths, unit;
};

static struct head read_head(const uint8_t *p, const uint8_t *end)
{
    static const int64_t units[] = {1000, 100, 10, 1};
    const struct head misspelled = {NULL, 0, 0};
    bool minus = *p == '-';
    if (*p == '-' || *p == '+')
        p++;
    const uint8_t *digits = p;
    int64_t h = 0;
    while (is_digit(p, end) && p - digits <= 7)
        h = 10 * h + (*p++ - '0');
    if (p == digits || p - digits > 7)
        return misspelled;
    int places = 0;
    if (p < end && *p == '.') {
        for (p++; is_digit(p, end) && places <= 3; places++)
            h = 10 * h + (*p++ - '0');
        if (places > 3)
            return misspelled;
    }
    h *= units[places];
    return (struct head){p, minus ? -h : h, units[places]};
}

/* Whether a head passes for point i: within less than half a spacing, or within half a unit, the half included. */
ALWAYS_INLINE bool head_passes(const struct frame *f, const struct head *head, int64_t i)
{
    if (f->points == 1)
        return head->thousandths == f->first;
    int64_t steps = f->points - 1, span = f->last - f->first;
    int64_t off = (head->thousandths - f->first) * steps - i * span;
    int64_t twice = 2 * (off < 0 ? -off : off);
    return twice < (span < 0 ? -span : span) || twice <= head->unit * steps;
}

/* The number that starts with `lead` and goes on with the digits at *p, which are passed over. */
ALWAYS_INLINE uint64_t digits(const uint8_t **p, const uint8_t *end, uint64_t lead)
{
    const uint8_t *q = *p;
    uint64_t v = lead;
    for (uint8_t d; q < end && (d = (uint8_t)(*q - '0')) <= 9; q++)
        v = 10 * v + d;
    *p = q;
    return v;
}

/* Whether a byte with this entry starts a difference. */
ALWAYS_INLINE bool is_dif(unsigned entry)
{
    return entry >= K(DIF, 0) && entry < K(DUP, 0);
}

/* Whether the difference at p is spelled right. */
static bool dif_is_spelled(const uint8_t *p, const uint8_t *end)
{
    const uint8_t *at = p++;
    digits(&p, end, 0);
    return p - at <= (*at == '%' ? 1 : 10);
}

/* Whether y is an ordinate. */
ALWAYS_INLINE bool in_range(int64_t y)
{
    return (uint64_t)(y + LARGEST_ORDINATE) <= 2 * (uint64_t)LARGEST_ORDINATE;
}

/* Where a row of differences has come to: the text, the ordinate before, what a DUP adds, whether one came last. */
struct row {
    const uint8_t *p;
    int64_t y, step;
    bool repeated;
};

/*
 * Takes differences of a letter and at most three further digits, and DUPs of one letter after them, while five bytes
 * are left, up to `most` points. A token is taken without a test for the end of the text and none of the range: from
 * an ordinate that is FAR from its limits, ROW differences below 10,000 stay within it. A token takes a byte and adds a
 * point, so that one bound, `stop`, serves for the text, the points and the range; what a DUP adds is taken from it. The
 * sign is taken without a jump, which no processor could foresee. Whatever is spelled in another way is left to the
 * caller. Stores the ordinates if `out` is given; returns how many they are.
 */
ALWAYS_INLINE int64_t take_row(struct row *r, const uint8_t *end, int64_t most, int32_t *restrict out)
{
    enum { ROW = 1000, FAR = 10000000 };
    int64_t y = r->y, step = r->step, n = 0;
    const uint8_t *p = r->p;
    if (UNLIKELY(y < FAR - LARGEST_ORDINATE || y > LARGEST_ORDINATE - FAR || end - p < 5))
        return 0;
    if (most > ROW)
        most = ROW;
    const uint8_t *stop = end - 4 - p < most ? end - 4 : p + most;
    bool repeated = r->repeated;
    while (p < stop) {
        unsigned v = (unsigned)(*p & 0xDF) - 'J', minus = *p >> 5 & 1, d;
        if (v > 8) {
            unsigned more = (unsigned)*p - 'S'; /* how many points a DUP adds */
            if (more - 1 > 6 || repeated || (unsigned)p[1] - '0' <= 9 || (int64_t)more > stop - p
                || (uint64_t)(step + 9999) > 2 * 9999)
                break;
            if (out)
                for (unsigned k = 0; k < more; k++)
                    out[n + k] = (int32_t)(y += step);
            else
                y += (int64_t)more * step;
            n += more;
            p++;
            stop -= more;
            repeated = true;
            continue;
        }
        v++;
        unsigned length = 1;
        if ((d = (unsigned)p[1] - '0') <= 9) {
            v = 10 * v + d;
            length = 2;
            if ((d = (unsigned)p[2] - '0') <= 9) {
                v = 10 * v + d;
                length = 3;
                if ((d = (unsigned)p[3] - '0') <= 9) {
                    v = 10 * v + d;
                    length = 4;
                    if ((unsigned)p[4] - '0' <= 9)
                        break;
                }
            }
        }
        p += length;
        step = (int32_t)((v ^ -minus) + minus);
        y += step;
        if (out)
            out[n] = (int32_t)y;
        n++;
        repeated = false;
    }
    *r = (struct row){p, y, step, repeated};
    return n;
}

/*
 * Takes the ordinate of its own at *at, blanks before it passed over: AFFN, PAC or SQZ, of at most ten digits and within
 * the range. Whatever is spelled in another way, and the text's last bytes, are left to the caller.
 */
ALWAYS_INLINE bool take_own(const uint8_t **at, const uint8_t *end, int64_t *value)
{
    const uint8_t *p = *at;
    while (p < end && is_blank(*p))
        p++;
    if (end - p < 12)
        return false;
    unsigned byte = *p, d;
    if ((d = byte - '0') <= 9) {
        if (!is_blank(p[-1]))
            return false;
    } else if ((d = (byte & 0xDF) - 'A') <= 8) {
        d++;
    } else if (byte == '+' || byte == '-') {
        if ((d = (unsigned)*++p - '0') > 9)
            return false;
    } else {
        return false;
    }
    int64_t v = d;
    p++;
    for (int left = 9; (d = (unsigned)*p - '0') <= 9; p++) {
        if (left-- == 0)
            return false;
        v = 10 * v + d;
    }
    if (v > LARGEST_ORDINATE)
        return false;
    *value = byte == '-' || byte >= 'a' ? -v : v;
    *at = p;
    return true;
}

/* Goes over a body once, judges it, and stores its ordinates if asked to. The answer is that of c_read_table. */
ALWAYS_INLINE uint64_t pass(const struct frame *f, struct text body, bool storing, int32_t *restrict out,
                            uint64_t *place)
{
#define REFUSE(number, at)                                                                                             \
    do {                                                                                                               \
        *place = (uint64_t)((at)-body.start);                                                                          \
        return number;                                                                                                 \
    } while (0)
/* A fault on a line, which its length comes before. */
#define REFUSE_ON(number, at)                                                                                          \
    do {                                                                                                               \
        if (line_is_long(line, end))                                                                                   \
            REFUSE(16, line);                                                                                          \
        REFUSE(number, at);                                                                                            \
    } while (0)

    const uint8_t *p = body.start, *const end = body.end;
    const int64_t points = f->points;
    int64_t i = 0;                         /* points given so far */
    int64_t y = 0, step = 0;               /* the ordinate before; what a DUP adds to it */
    enum { NONE, PLAIN, GAP, SLOPE } form = NONE; /* what the last value of the line before was */

    while (p < end) {
        const uint8_t *const line = p;
        while (p < end && is_blank(*p))
            p++;
        const uint8_t *next = line_end(p, end);
        if (next) {
            if (UNLIKELY(next - line > LONGEST_LINE) && line_is_long(line, end))
                REFUSE(16, line);
            p = next;
            continue;
        }
        const uint8_t *const head = p;
        unsigned k = c_kinds[*p] >> 4;
        if (k >= LF)
            REFUSE_ON(3, p);
        if (k != DIGIT && k != PLUS && k != MINUS)
            REFUSE_ON(4, p);
        struct head read = read_head(p, end);
        if (!read.end)
            REFUSE_ON(4, p);
        bool check = form == SLOPE; /* the next value repeats the last point */
        if (!head_passes(f, &read, i - check))
            REFUSE_ON(6, head);
        p = read.end;

        form = NONE;
        bool repeated = false; /* the last token was a DUP */
        for (;;) {
            const uint8_t *at = p;
            if (p == end)
                break;
            unsigned entry = c_kinds[*p++];
            int64_t value;
            switch (entry >> 4) {
            case DIF:
            case DIF_MINUS:
                if (form != PLAIN && form != SLOPE)
                    REFUSE_ON(dif_is_spelled(at, end) ? 8 : 5, at);
                form = SLOPE;
                repeated = false;
                for (p = at;;) { /* differences mostly come in rows: they have loops of their own */
                    struct row r = {p, y, step, repeated};
                    i += take_row(&r, end, points - i, storing ? out + i : NULL);
                    p = r.p;
                    y = r.y;
                    step = r.step;
                    repeated = r.repeated;
                    if (p == end || !is_dif(entry = c_kinds[*p]))
                        break;
                    at = p++;
                    value = (int64_t)digits(&p, end, entry & 15);
                    if (UNLIKELY(p - at > 10 || (entry == K(DIF, 0) && p - at > 1)))
                        REFUSE_ON(5, at);
                    step = entry < K(DIF_MINUS, 0) ? value : -value;
                    y += step;
                    if (UNLIKELY(!in_range(y)))
                        REFUSE_ON(9, at);
                    if (UNLIKELY(i == points))
                        REFUSE_ON(11, at);
                    if (storing)
                        out[i] = (int32_t)y;
                    i++;
                    repeated = false;
                }
                continue;

            case DUP: {
                uint64_t count = digits(&p, end, entry & 15);
                if (p - at > 5)
                    REFUSE_ON(5, at);
                if (form == NONE || repeated || count < 2)
                    REFUSE_ON(8, at);
                int64_t more = (int64_t)count - 1, last = y + more * step;
                if (form == SLOPE && !in_range(last))
                    REFUSE_ON(9, at);
                if (more > points - i)
                    REFUSE_ON(11, at);
                if (storing)
                    for (int64_t j = i; j < i + more; j++)
                        out[j] = (int32_t)(y += step);
                y = last;
                i += more;
                repeated = true;
                continue;
            }

            case BLANK: /* mostly one before a plain value: that is taken at once */
                if (!is_digit(p, end))
                    continue;
                at = p;
                entry = c_kinds[*p++];
                /* fall through */
            case DIGIT:
                if (!is_blank(at[-1]))
                    REFUSE_ON(5, at);
                value = (int64_t)digits(&p, end, entry & 15);
                if (p - at > 10)
                    REFUSE_ON(5, at);
                break;
            case PLUS:
            case MINUS:
                value = (int64_t)digits(&p, end, 0);
                if (p - at < 2 || p - at > 11)
                    REFUSE_ON(5, at);
                value = entry >> 4 == MINUS ? -value : value;
                break;
            case SQZ:
            case SQZ_MINUS:
                value = (int64_t)digits(&p, end, entry & 15);
                if (p - at > 10 || (entry == K(SQZ, 0) && p - at > 1))
                    REFUSE_ON(5, at);
                value = entry >> 4 == SQZ_MINUS ? -value : value;
                break;
            case MISSING:
                value = MISSING_ORDINATE;
                break;
            case LF:
                p = at;
                goto line_ended;
            case CR:
            case DOLLAR:
                p = at;
                if (!line_end(p, end))
                    REFUSE_ON(3, p);
                goto line_ended;
            default:
                REFUSE_ON(3, at);
            }

            /* An ordinate by itself, or a missing one. */
            bool gap = entry >> 4 == MISSING;
            if (!gap && !in_range(value))
                REFUSE_ON(9, at);
            step = 0;
            if (check && form == NONE) {
                if (value != y)
                    REFUSE_ON(10, at);
                form = PLAIN;
                continue;
            }
            if (i == points)
                REFUSE_ON(11, at);
            if (storing)
                out[i] = (int32_t)value;
            i++;
            y = value;
            form = gap ? GAP : PLAIN;
            repeated = false;
            while (!gap && i < points && take_own(&p, end, &y)) { /* such values come in rows too */
                if (storing)
                    out[i] = (int32_t)y;
                i++;
            }
        }
    line_ended:
        if (form == NONE)
            REFUSE_ON(7, head);
        p = line_end(p, end);
        if (UNLIKELY(p - line > LONGEST_LINE) && line_is_long(line, end))
            REFUSE(16, line);
    }
    if (i < points)
        REFUSE(12, end);
    if (form == SLOPE)
        REFUSE(13, end);
    *place = (uint64_t)points;
    return 0;
#undef REFUSE_ON
#undef REFUSE
}

/* The pass that only answers. */
static uint64_t judge(const struct frame *f, struct text body, uint64_t *place)
{
    return pass(f, body, false, NULL, place);
}

/* The pass that answers and stores. */
static uint64_t store(const struct frame *f, struct text body, int32_t *restrict out, uint64_t *place)
{
    return pass(f, body, true, out, place);
}

/* Refusals 1 and 2, which need no look at the body; 0 if there is none. */
ALWAYS_INLINE uint64_t judge_sizes(int64_t first, int64_t last, size_t points, size_t body_len, size_t out_len)
{
    if (!c_frame_in_limits(first, last, points) || body_len > MOST_BYTES)
        return 1;
    return out_len < points ? 2 : 0;
}

uint64_t c_read_table(int64_t first, int64_t last, size_t points, const uint8_t *body, size_t body_len, int32_t *out,
                      size_t out_len, uint64_t *place)
{
    *place = 0;
    uint64_t number = judge_sizes(first, last, points, body_len, out_len);
    if (number)
        return number;
    struct frame f = {first, last, (int64_t)points};
    struct text t = {body, body + body_len};
    number = judge(&f, t, place);
    return number ? number : store(&f, t, out, place);
}

uint64_t c_read_table_then_decode(int64_t first, int64_t last, size_t points, const uint8_t *body, size_t body_len,
                                  int32_t *out, size_t out_len, uint64_t *place)
{
    *place = 0;
    uint64_t number = judge_sizes(first, last, points, body_len, out_len);
    if (number)
        return number;
    struct frame f = {first, last, (int64_t)points};
    number = judge(&f, (struct text){body, body + body_len}, place);
    return number ? number : c_read_table_unchecked(first, last, points, body, body_len, out, out_len, place);
}

uint64_t c_read_table_scratch(int64_t first, int64_t last, size_t points, const uint8_t *body, size_t body_len,
                              int32_t *out, size_t out_len, uint64_t *place)
{
    static int32_t scratch[MOST_POINTS];
    *place = 0;
    uint64_t number = judge_sizes(first, last, points, body_len, out_len);
    if (number)
        return number;
    struct frame f = {first, last, (int64_t)points};
    number = store(&f, (struct text){body, body + body_len}, scratch, place);
    if (!number)
        memcpy(out, scratch, points * sizeof *out);
    return number;
}
