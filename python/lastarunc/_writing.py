"""The writers: a table in one of the four forms, a whole file, and how long each will be."""
from __future__ import annotations

import ctypes
from fractions import Fraction
from typing import Any, Iterable, Optional, Tuple, Union

from ._answers import WrittenFile, written_refusal
from ._given import Number, Text, form_of, mantissa_of, ordinates_of, scales_of, size_of, text_of, thousandths_of
from ._library import MISSING, call

Abscissa = Union[Number, Fraction]
Ordinates = Iterable[Optional[int]]
_LARGEST_MANTISSA = 999999999


def _table(first: Abscissa, last: Abscissa, ordinates: Ordinates, points: Optional[int], form: str) -> Tuple[Any, ...]:
    """The form, the frame and the ordinates of a table, as the library wants them."""
    given = ordinates_of(ordinates)
    count = len(given) if points is None else size_of(points, "points")
    return form_of(form), thousandths_of(first, "first"), thousandths_of(last, "last"), count, given, len(given)


def _text_in(name: str, words: Tuple[Any, ...], length: int) -> Tuple[Any, bytes]:
    """The answer of a writer that has room for so many bytes, and its text."""
    text = (ctypes.c_char * length)()
    answer = call(name, "text", *words, text, length)
    if answer.refused:
        raise written_refusal(answer)
    return answer, text.raw[: answer.length]


def _length(name: str, words: Tuple[Any, ...]) -> int:
    """The length of what a writer would write."""
    answer = call(name, "text", *words)
    if answer.refused:
        raise written_refusal(answer)
    return int(answer.length)


def write_table(
    first: Abscissa,
    last: Abscissa,
    ordinates: Ordinates,
    *,
    points: Optional[int] = None,
    form: str = "difdup",
    room: Optional[int] = None,
) -> bytes:
    """
    Writes ordinates (None for a missing one; a list, or an array of numpy, masked or not) as the body of a table, in
    the form "difdup", "affn", "pac" or "sqz". `points` is how many of them; without it all. `room` is for how many
    bytes there is room; without it for all. Refused: 1, 2, 15.
    """
    words = _table(first, last, ordinates, points, form)
    return _text_in("write_form", words, _length("text_length", words) if room is None else size_of(room, "room"))[1]


def text_length(
    first: Abscissa, last: Abscissa, ordinates: Ordinates, *, points: Optional[int] = None, form: str = "difdup"
) -> int:
    """How many bytes write_table would write."""
    return _length("text_length", _table(first, last, ordinates, points, form))


def _first_times(ordinates: Any, yfactor: Tuple[int, int]) -> Tuple[int, int]:
    """The first ordinate times YFACTOR, exactly; 0 if it is missing."""
    if not len(ordinates) or ordinates[0] in (0, MISSING) or not yfactor[0]:
        return 0, 0
    mantissa, exponent = ordinates[0] * yfactor[0], yfactor[1]
    while mantissa % 10 == 0:
        mantissa, exponent = mantissa // 10, exponent + 1
    if abs(mantissa) > _LARGEST_MANTISSA:
        raise ValueError("firsty is wanted: the first ordinate times yfactor has over 9 digits")
    return mantissa, exponent


def _file(
    title: Text,
    ordinates: Ordinates,
    firstx: Number,
    lastx: Number,
    xfactor: Number,
    yfactor: Number,
    firsty: Optional[Number],
    points: Optional[int],
) -> Tuple[Any, ...]:
    """What the library wants of a file to be written."""
    given, name, scale = ordinates_of(ordinates), text_of(title), mantissa_of(yfactor, "yfactor")
    start = _first_times(given, scale) if firsty is None else mantissa_of(firsty, "firsty")
    ends = mantissa_of(firstx, "firstx"), mantissa_of(lastx, "lastx")
    scales = scales_of(mantissa_of(xfactor, "xfactor"), scale, *ends, start)
    count = len(given) if points is None else size_of(points, "points")
    return name, len(name), count, ctypes.byref(scales), given, len(given)


def write_file(
    title: Text,
    ordinates: Ordinates,
    *,
    firstx: Number,
    lastx: Number,
    xfactor: Number = 1,
    yfactor: Number = 1,
    firsty: Optional[Number] = None,
    points: Optional[int] = None,
    room: Optional[int] = None,
) -> WrittenFile:
    """
    Writes a simple file, its table in DIFDUP form. firstx and lastx are in units, and with the factors exact decimals
    of at most 9 digits, spelled in the file as they are given; firsty is the first ordinate times yfactor, and is
    calculated if it is not given. Refused: 37, 26, 28, 1, 2, 29, 15.
    """
    words = _file(title, ordinates, firstx, lastx, xfactor, yfactor, firsty, points)
    answer, text = _text_in(
        "write_file", words, _length("file_length", words) if room is None else size_of(room, "room")
    )
    return WrittenFile(text, bool(answer.first_exact), bool(answer.last_exact), bool(answer.firsty_exact))


def file_length(
    title: Text,
    ordinates: Ordinates,
    *,
    firstx: Number,
    lastx: Number,
    xfactor: Number = 1,
    yfactor: Number = 1,
    firsty: Optional[Number] = None,
    points: Optional[int] = None,
) -> int:
    """How many bytes write_file would write."""
    return _length("file_length", _file(title, ordinates, firstx, lastx, xfactor, yfactor, firsty, points))
