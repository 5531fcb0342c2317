"""What is answered: tables, files, records, blocks, reports; and the refusal."""
from __future__ import annotations

from dataclasses import dataclass, field
from decimal import Decimal
from typing import Any, Dict, List, Optional, Tuple

from ._library import MISSING
from ._meanings import COMPOUND, READ, WRITTEN

# What is said of a number that a later library may have.
_NO_WORDS = "this number has no words yet"


class Refused(Exception):
    """
    What was given is refused. `number` is document 01's number, `place` the byte, from 0, `line` and `column` where it
    stands, both from 1 (0 in a spool; all three are 0 in a writer's refusal), `meaning` what the number means.
    `on_page` is true if they count in a profile's page, `name` is the path that was read, if one was.
    """

    __module__ = "lastarunc"

    def __init__(
        self, number: int, place: int, line: int, column: int, meaning: str, on_page: bool = False, name: str = ""
    ) -> None:
        super().__init__(number, place, line, column, meaning, on_page, name)
        self.number, self.place, self.line, self.column = number, place, line, column
        self.meaning, self.on_page, self.name = meaning, on_page, name

    def __str__(self) -> str:
        where = f"{self.line}:{self.column}: " if self.line else f"byte {self.place}: " if self.place else ""
        return f"{self.name}{':' if self.name and where else ''}{where}refused {self.number}: {self.meaning}"


def refusal(answer: Any, name: str = "", compound: bool = False) -> Refused:
    """A reader's refusal, of its answer."""
    number = answer.refused
    words = COMPOUND if compound and number in COMPOUND else READ
    on_page = bool(getattr(answer, "on_page", 0))
    return Refused(number, answer.place, answer.line, answer.column, words.get(number, _NO_WORDS), on_page, name)


def written_refusal(answer: Any) -> Refused:
    """A writer's refusal, of its answer."""
    return Refused(answer.refused, 0, 0, 0, WRITTEN.get(answer.refused, _NO_WORDS))


def units(thousandths: int) -> Decimal:
    """Thousandths as an exact decimal with no needless zero."""
    whole, part = divmod(abs(thousandths), 1000)
    text = f"{whole}.{part:03}".rstrip("0").rstrip(".")
    return Decimal("-" + text if thousandths < 0 else text)


@dataclass(frozen=True)
class Table:
    """
    A table that was read. `ordinates` has a whole number for each point, None for one that is missing, which is never
    0. The first and last tabulated abscissa are `first` and `last`, and in whole thousandths `first_thousandths` and
    `last_thousandths`.
    """

    points: int
    first_thousandths: int
    last_thousandths: int
    ordinates: List[Optional[int]] = field(repr=False)

    @property
    def first(self) -> Decimal:
        """The first tabulated abscissa."""
        return units(self.first_thousandths)

    @property
    def last(self) -> Decimal:
        """The last tabulated abscissa."""
        return units(self.last_thousandths)

    @property
    def missing(self) -> int:
        """How many points are missing."""
        return self.ordinates.count(None)

    def array(self) -> Any:
        """
        The ordinates as a masked array of numpy, the missing ones masked. Behind the mask, and where it is filled,
        stands -2147483648, which is no ordinate: a missing one is not even there a 0.
        """
        try:
            import numpy  # type: ignore
        except ImportError as error:
            raise ImportError("array() wants numpy, and this Python has none; .ordinates is a list") from error
        data = [MISSING if y is None else y for y in self.ordinates]
        mask = [y is None for y in self.ordinates]
        return numpy.ma.MaskedArray(data, mask=mask, dtype=numpy.int32, fill_value=MISSING)


@dataclass(frozen=True)
class File(Table):
    """
    The table of a file. The last three are false if a quotient was rounded: FIRSTX and LASTX over XFACTOR in
    thousandths, FIRSTY over YFACTOR (true if the first ordinate is missing, since it is then not compared).
    """

    first_exact: bool
    last_exact: bool
    firsty_exact: bool


@dataclass(frozen=True)
class Record:
    """The text of a record, and the bytes of the file, from `start` up to, not with, `end`, where it stands."""

    text: bytes
    start: int
    end: int


@dataclass(frozen=True)
class Shown(Record):
    """A text of the profile, which stands in the page if `on_page` is true, otherwise in the file."""

    on_page: bool


@dataclass(frozen=True)
class Profile(File):
    """A file with the ion mobility profile: its table, and `texts`, the fifteen texts by the names in WANTED."""

    texts: Dict[str, Shown]


@dataclass(frozen=True)
class Block:
    """
    A data block of a file. The bytes from `cut_from` up to, not with, `cut_to` are the block cut out as a file; its
    records begin at `start` and end at `end`.
    """

    cut_from: int
    cut_to: int
    start: int
    end: int


@dataclass(frozen=True)
class Blocks:
    """The data blocks of a file, and whether it is a compound one."""

    compound: bool
    blocks: Tuple[Block, ...]


@dataclass(frozen=True)
class WrittenFile:
    """The bytes of a file that was written, and what is exact in it, as in File."""

    text: bytes
    first_exact: bool
    last_exact: bool
    firsty_exact: bool


@dataclass(frozen=True)
class Converted:
    """A file whose old table was converted; if `has_body` is false none was found, and `text` is as it was."""

    text: bytes
    has_body: bool


@dataclass(frozen=True)
class Report:
    """
    The report of a file of a spool, counted from 1. If the file is refused, `refused` says why, and the rest is 0, None
    or empty. `faintest` is the smallest magnitude of the ordinates that are neither zero nor missing; None where there
    is no lowest, highest or faintest.
    """

    number: int
    refused: Optional[Refused]
    points: int
    missing: int
    lowest: Optional[int]
    highest: Optional[int]
    sum: int
    faintest: Optional[int]
    ordinates: List[Optional[int]] = field(repr=False)


@dataclass(frozen=True)
class Totals:
    """How many files were seen, and over those that were accepted: files, points, missing points, sum."""

    seen: int
    files: int
    points: int
    missing: int
    sum: int
