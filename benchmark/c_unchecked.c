/* A decoder of table bodies that are known to be right: one pass, no check of any kind. */
#include "c_table.h"

#include <string.h>

/* The number that starts with `lead` and goes on with the digits at *p, which are passed over. */
static inline int64_t digits(const uint8_t **p, const uint8_t *end, int64_t lead)
{
    const uint8_t *q = *p;
    for (uint8_t d; q < end && (d = (uint8_t)(*q - '0')) <= 9; q++)
        lead = 10 * lead + d;
    *p = q;
    return lead;
}

/* The value or, if minus is 1, its negative, without a jump: no processor can foresee the sign of a difference. */
static inline int64_t signed_by(int64_t value, int64_t minus)
{
    return (value ^ -minus) + minus;
}

/* The end of the line's comment: the place of the next LF, or the end. */
static const uint8_t *comment_end(const uint8_t *p, const uint8_t *end)
{
    const uint8_t *lf = memchr(p, '\n', (size_t)(end - p));
    return lf ? lf : end;
}

/* The first byte at or after p that no head has; p stands at a head. */
static const uint8_t *head_end(const uint8_t *p, const uint8_t *end)
{
    do
        p++;
    while (p < end && (c_kinds[*p] >> 4 == DIGIT || *p == '.'));
    return p;
}

uint64_t c_read_table_unchecked(int64_t first, int64_t last, size_t points, const uint8_t *body, size_t body_len,
                                int32_t *restrict out, size_t out_len, uint64_t *place)
{
    (void)first, (void)last, (void)out_len;
    const uint8_t *p = body, *const end = body + body_len;
    int64_t y = 0, step = 0; /* the ordinate before; the difference that a DUP repeats, 0 after any other form */
    bool slope = false;      /* the last value was in DIF form */
    bool head = true;        /* the line's head is still to come */
    bool check = false;      /* the next value repeats the last point */
    while (p < end) {
        unsigned entry = c_kinds[*p];
        if (head && entry >> 4 != BLANK && entry >> 4 < LF) {
            p = head_end(p, end);
            check = slope;
            head = false;
            continue;
        }
        p++;
        switch (entry >> 4) {
        case DIF:
        case DIF_MINUS:
            step = signed_by(digits(&p, end, entry & 15), entry >> 4 == DIF_MINUS);
            *out++ = (int32_t)(y += step);
            slope = true;
            /* Differences mostly come in rows: those with at most three further digits, and DUPs of one letter. */
            while (end - p >= 5) {
                unsigned v = (unsigned)(*p & 0xDF) - 'J', minus = *p >> 5 & 1, length = 1, d;
                if (v > 8) {
                    unsigned more = (unsigned)*p - 'S'; /* how many points a DUP adds */
                    if (more - 1 > 6 || (unsigned)p[1] - '0' <= 9)
                        break;
                    for (; more; more--)
                        *out++ = (int32_t)(y += step);
                    p++;
                    continue;
                }
                v++;
                if ((d = (unsigned)p[1] - '0') <= 9) {
                    v = 10 * v + d;
                    length = 2;
                    if ((d = (unsigned)p[2] - '0') <= 9) {
                        v = 10 * v + d;
                        length = 3;
                        if ((d = (unsigned)p[3] - '0') <= 9) {
                            v = 10 * v + d;
                            length = 4;
                            if ((unsigned)p[4] - '0' <= 9)
                                break;
                        }
                    }
                }
                p += length;
                step = signed_by(v, minus);
                *out++ = (int32_t)(y += step);
            }
            continue;
        case DUP:
            for (int64_t more = digits(&p, end, entry & 15) - 1; more > 0; more--)
                *out++ = (int32_t)(y += step);
            continue;
        case DIGIT:
        case PLUS:
        case SQZ:
            y = digits(&p, end, entry & 15);
            break;
        case MINUS:
        case SQZ_MINUS:
            y = -digits(&p, end, entry & 15);
            break;
        case MISSING:
            y = MISSING_ORDINATE;
            break;
        case DOLLAR:
            p = comment_end(p, end);
            continue;
        case LF:
            head = true;
            continue;
        default: /* a blank, or the CR before an LF */
            continue;
        }
        step = 0;
        slope = false;
        if (!check)
            *out++ = (int32_t)y;
        check = false;
    }
    *place = points;
    return 0;
}
