"""A separate writer after the rules of document 01 ("The written text") and 02 (T-02, T-03), for the texts of
tables.txt: it uses no output of the one in Rattle. tools/samples runs it."""
from fractions import Fraction
from math import floor

MISSING = None


def pseudo(number, up, down):
    """A number whose first digit is replaced by the pseudo-digit of its row."""
    digits = str(abs(number))
    return (down if number < 0 else up)[int(digits[0])] + digits[1:]


def squeezed(y):
    """An ordinate as a line's first value."""
    return "?" if y is MISSING else pseudo(y, "@ABCDEFGHI", " abcdefghi")


def head(first, last, n, i):
    """The exact abscissa to the nearest thousandth, halves to the larger."""
    exact = Fraction(first) if n == 1 else first + Fraction(i * (last - first), n - 1)
    h = floor(exact + Fraction(1, 2))
    text = ("-" if h < 0 else "") + str(abs(h) // 1000)
    part = "%03d" % (abs(h) % 1000)
    return text + ("." + part.rstrip("0") if part != "000" else "")


def tokens(ys, i, fresh):
    """The token and form of the point i; `fresh`: it is its line's first value."""
    if ys[i] is MISSING:
        return "?", "?"
    if fresh or ys[i - 1] is MISSING:
        return squeezed(ys[i]), "SQZ"
    return pseudo(ys[i] - ys[i - 1], "%JKLMNOPQR", " jklmnopqr"), "DIF"


def group(ys, i, fresh):
    """The group at the point i: its text, its points and its form."""
    token, form = tokens(ys, i, fresh)
    count = 1
    while form != "SQZ" and i + count < len(ys) and tokens(ys, i + count, False) == (token, form):
        count += 1
    dup = pseudo(count, " STUVWXYZs", "") if count > 1 else ""
    return token + dup, count, form


def in_full(y, form):
    """A value written in full, after what separates it in AFFN, PAC or SQZ."""
    if form == "sqz":
        return squeezed(y)
    word = "?" if y is MISSING else str(y)
    return word if form == "pac" and word[0] in "-?" else " " + word


def write_in_full(first, last, ys, form):
    """The text in a form without differences: as many values on a line as fit in 80 bytes."""
    lines = []
    for i, y in enumerate(ys):
        value = in_full(y, form)
        if not lines or len(lines[-1] + value) > 80:
            lines.append(head(first, last, len(ys), i))
        lines[-1] += value
    return "".join(line + "\r\n" for line in lines)


def write_difdup(first, last, ys):
    """The text in DIFDUP form."""
    n, i, lines, form = len(ys), 0, [], None
    line = head(first, last, n, 0)
    fresh = True
    while i < n:
        text, count, new = group(ys, i, fresh)
        if len(line) + len(text) > 80:
            lines.append(line)
            fresh = form != "DIF"
            line = head(first, last, n, i) if fresh else head(first, last, n, i - 1) + squeezed(ys[i - 1])
            form = None
            continue
        line, i, form, fresh = line + text, i + count, new, False
    lines.append(line)
    if form == "DIF":
        lines.append(head(first, last, n, n - 1) + squeezed(ys[-1]))
    return "".join(line + "\r\n" for line in lines)


def write(first, last, ys, form):
    """The text of a table in a form: difdup, affn, pac or sqz."""
    return write_difdup(first, last, ys) if form == "difdup" else write_in_full(first, last, ys, form)


def answer(first, last, n, ys, room, form):
    """The answer to a table with these ordinates and this room: a refusal's number, or 0, and the text."""
    if max(abs(first), abs(last)) > 9999999999 or not 1 <= n <= 65536 or (first == last) != (n == 1):
        return 1, ""
    if len(ys) < n:
        return 2, ""
    text = write(first, last, ys[:n], form)
    return (0, text) if len(text) <= room else (15, "")
