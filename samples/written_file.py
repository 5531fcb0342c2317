"""A separate writer of whole files after document 02 (T-04), for the texts of written_files.txt; the table in it is
written.py's. A decimal is a pair, mantissa and exponent, and is computed with as a fraction. tools/samples runs it."""
from fractions import Fraction
from math import floor

import written

LABELS = ["XFACTOR", "YFACTOR", "FIRSTX", "LASTX", "FIRSTY"]


def title_allowed(title):
    """At most 72 bytes, each from 32 to 126, no `$$`."""
    return len(title) <= 72 and all(32 <= byte <= 126 for byte in title) and b"$$" not in title


def scales_allowed(scales):
    """Mantissas of at most 9 digits, exponents of at most 99 in magnitude, factors above zero."""
    small = all(len(str(abs(mantissa))) <= 9 and abs(exponent) <= 99 for mantissa, exponent in scales)
    return small and scales[0][0] > 0 and scales[1][0] > 0


def ratio(above, below, unit):
    """The quotient of two decimals in units, rounded to the nearest whole number, halves to the larger."""
    (a, p), (b, q) = above, below
    return floor(Fraction(a * unit, b) * Fraction(10) ** (p - q) + Fraction(1, 2))


def frame(scales):
    """F and L, in thousandths."""
    return ratio(scales[2], scales[0], 1000), ratio(scales[3], scales[0], 1000)


def spelled(decimal):
    """Mantissa, `E`, sign (`+` for zero), two digits."""
    return "%dE%+03d" % decimal


def write(title, n, scales, body):
    """The file around a body."""
    words = dict(zip(LABELS, map(spelled, scales)), TITLE=title.decode("ascii"), NPOINTS=n, XYDATA="(X++(Y..Y))")
    order = ["TITLE", "XFACTOR", "YFACTOR", "FIRSTX", "LASTX", "NPOINTS", "FIRSTY", "XYDATA"]
    return "".join(f"##{label}={words[label]}\r\n" for label in order) + body + "##END=\r\n"


def answer(title, n, scales, ys, room):
    """The answer to a file with these ordinates and this room: a refusal's number, or 0, and the text."""
    if not title_allowed(title):
        return 37, ""
    if not scales_allowed(scales):
        return 26, ""
    first, last = frame(scales)
    if max(abs(first), abs(last)) > 9999999999:
        return 28, ""
    number, body = written.answer(first, last, n, ys, 2**20, "difdup")
    if number:
        return number, ""
    if ys[0] is not written.MISSING and ratio(scales[4], scales[1], 1) != ys[0]:
        return 29, ""
    text = write(title, n, scales, body)
    return (0, text) if len(text) <= room else (15, "")
