"""
What is given to the functions, as the library wants it; what it cannot even be asked for is a ValueError or TypeError.
"""
from __future__ import annotations

import operator
import os
from decimal import Decimal, InvalidOperation
from fractions import Fraction
from typing import Any, Iterable, Optional, Tuple, Union

from ._library import MISSING, STRUCTS, array_of

# A text: its bytes, or a str, which is encoded in UTF-8.
Text = Union[bytes, bytearray, memoryview, str]
# A file: its path, or its bytes.
Source = Union[str, "os.PathLike[str]", bytes, bytearray, memoryview]
# A number: a float counts as the decimal that Python prints for it; a pair is mantissa and exponent.
Number = Union[int, str, Decimal, float, Tuple[int, int]]

_LARGEST = 2**63 - 1
# More places than a number of 64 bits has: an exponent beyond them tells nothing more.
_PLACES = 40
FORMS = ("difdup", "affn", "pac", "sqz")


def text_of(given: Text) -> bytes:
    """The bytes of a text."""
    return given.encode() if isinstance(given, str) else bytes(memoryview(given))


def file_of(source: Source, most: int = -1) -> Tuple[bytes, str]:
    """The bytes of a file, so many at most, and its path, if it was given one."""
    if isinstance(source, (str, os.PathLike)):
        with open(source, "rb") as opened:
            return opened.read(most), os.fspath(source)
    return bytes(memoryview(source)), ""


def within(number: int) -> int:
    """A number in 64 bits; one beyond them becomes their end, which the library refuses as it would the number."""
    return max(-_LARGEST, min(_LARGEST, number))


def size_of(count: int, what: str) -> int:
    """A number of points, or a room."""
    if operator.index(count) < 0:
        raise ValueError(f"{what} cannot be negative: {count}")
    return min(_LARGEST, count)


def decimal_of(number: Union[int, str, Decimal, float], what: str) -> Decimal:
    """A number as an exact decimal."""
    plain = repr(float(number)) if isinstance(number, float) else number
    try:
        decimal = Decimal(operator.index(plain) if hasattr(plain, "__index__") else plain)
    except (InvalidOperation, TypeError, ValueError):
        raise ValueError(f"{what} is no decimal: {number!r}") from None
    if not decimal.is_finite():
        raise ValueError(f"{what} is no decimal: {number!r}")
    return decimal


def mantissa_of(number: Number, what: str) -> Tuple[int, int]:
    """A number as mantissa and exponent, as it is spelled."""
    if isinstance(number, tuple):
        return number
    sign, digits, exponent = decimal_of(number, what).as_tuple()
    if len(digits) > _PLACES:
        raise ValueError(f"{what} has too many digits: {number}")
    mantissa = int("".join(map(str, digits)))
    return -mantissa if sign else mantissa, int(exponent)


def thousandths_of(number: Union[Number, Fraction], what: str) -> int:
    """An abscissa in whole thousandths."""
    if isinstance(number, Fraction):
        mantissa, over = number.numerator * 1000, number.denominator
    else:
        mantissa, exponent = mantissa_of(number, what)
        places = max(-_PLACES, min(_PLACES, exponent + 3))
        mantissa, over = mantissa * 10 ** max(places, 0), 10 ** max(-places, 0)
    if mantissa % over:
        raise ValueError(f"{what} is no whole number of thousandths: {number}")
    return within(mantissa // over)


def _ordinate(i: int, y: Any) -> int:
    """Ordinate i as the library wants it; None, and the mask of numpy, is missing."""
    if y is None or type(y).__name__ == "MaskedConstant":
        return MISSING
    try:
        number = operator.index(y)
    except TypeError:
        raise TypeError(f"ordinate {i} is no whole number, and a missing one is None: {y!r}") from None
    if abs(number) >= 2**31:
        raise ValueError(f"ordinate {i} is beyond 2147483647 in magnitude: {number}")
    return number


def ordinates_of(ordinates: Iterable[Optional[int]]) -> Any:
    """Ordinates as the library wants them; None, or what a masked array masks, is missing."""
    listed = ordinates.tolist() if hasattr(ordinates, "tolist") else list(ordinates)
    return array_of(_ordinate(i, y) for i, y in enumerate(listed))


def form_of(form: str) -> int:
    """The number of a form."""
    if form not in FORMS:
        raise ValueError(f"{form!r} is no form: difdup, affn, pac or sqz is wanted")
    return FORMS.index(form)


def scales_of(*numbers: Tuple[int, int]) -> Any:
    """The numbers of a file that is written: XFACTOR, YFACTOR, FIRSTX, LASTX, FIRSTY."""
    return STRUCTS["scales"](*(STRUCTS["decimal"](*map(within, number)) for number in numbers))
