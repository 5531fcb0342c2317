"""The readers: tables, files, records, data blocks, the profile, a night's spool, and the converters of old tables."""
from __future__ import annotations

import ctypes
from fractions import Fraction
from typing import Any, Iterator, List, Optional, Tuple, Union

from ._answers import Block, Blocks, Converted, File, Profile, Record, Refused, Report, Shown, Table, Totals, refusal
from ._given import Number, Source, Text, file_of, size_of, text_of, thousandths_of
from ._library import ABSENT, MISSING, MOST_BYTES, MOST_POINTS, STRUCTS, call, library, room_for

# The records that the ion mobility profile wants, in the order of the header.
WANTED = (
    "JCAMP-DX",
    "DATA TYPE",
    "DATA CLASS",
    "ORIGIN",
    "OWNER",
    ".IMS PRESSURE",
    ".CARRIER GAS",
    ".DRIFT GAS",
    ".ELECTRIC FIELD",
    ".ION POLARITY",
    ".IONIZATION MODE",
    ".IMS TEMPERATURE",
    ".SHUTTER OPENING TIME",
    "XUNITS",
    "YUNITS",
)


def _listed(out: Any, points: int) -> List[Optional[int]]:
    """The ordinates that were stored, None for a missing one."""
    return [None if y == MISSING else y for y in out[:points]]


def _room(room: Optional[int]) -> Any:
    """Memory for so many ordinates, or for those of every table."""
    return room_for(MOST_POINTS if room is None else size_of(room, "room"))


def _frame(answer: Any) -> Tuple[int, int, int]:
    """Points, first and last."""
    return answer.points, answer.first, answer.last


def _exact(answer: Any) -> Tuple[bool, bool, bool]:
    """The three words on exactness."""
    return bool(answer.first_exact), bool(answer.last_exact), bool(answer.firsty_exact)


def _read_body(engine: str, first: Any, last: Any, points: int, body: Text, room: Optional[int]) -> Table:
    """Reads a body by one of the two engines."""
    text, frame = text_of(body), (thousandths_of(first, "first"), thousandths_of(last, "last"))
    count = size_of(points, "points")
    out = _room(min(count, MOST_POINTS) if room is None else room)
    answer = call(engine, "table", *frame, count, text, len(text), out, len(out))
    if answer.refused:
        raise refusal(answer)
    return Table(answer.points, *frame, _listed(out, answer.points))


def read_table(
    first: Union[Number, Fraction],
    last: Union[Number, Fraction],
    points: int,
    body: Text,
    *,
    room: Optional[int] = None,
) -> Table:
    """
    Reads the body of an XYDATA table of so many points, with its first and last abscissa in units, not in thousandths
    as in C (0.5, "0.5" or a Decimal; at most three places). `room` is for how many ordinates there is room; without it
    for all. Refused: 1 to 13, 16.
    """
    return _read_body("read_table", first, last, points, body, room)


def read_plain(
    first: Union[Number, Fraction],
    last: Union[Number, Fraction],
    points: int,
    body: Text,
    *,
    room: Optional[int] = None,
) -> Table:
    """The same as read_table, by the plain engine, which is there to be read; the other is faster."""
    return _read_body("read_plain", first, last, points, body, room)


def read_file(file: Source, *, room: Optional[int] = None) -> File:
    """Reads a simple file, given by its path, or by its bytes. Refused: 1 to 13, 16, 19 to 29."""
    data, name = file_of(file, MOST_BYTES + 1)
    out = _room(room)
    answer = call("read_file", "file", data, len(data), out, len(out))
    if answer.refused:
        raise refusal(answer, name)
    return File(*_frame(answer), _listed(out, answer.points), *_exact(answer))


def _record(answer: Any, data: bytes, name: str) -> Optional[Record]:
    """The record that was found, or None."""
    if answer.refused == ABSENT:
        return None
    if answer.refused:
        raise refusal(answer, name)
    start, end = getattr(answer, "from"), answer.to
    return Record(data[start:end], start, end)


def find_record(file: Source, name: Text) -> Optional[Record]:
    """The record of a simple file with this name, as "YFACTOR"; None if it is absent. Refused: 19 to 24."""
    data, path = file_of(file, MOST_BYTES + 1)
    label = text_of(name)
    return _record(call("find_record", "record", data, len(data), label, len(label)), data, path)


def _struct_of(block: Block) -> Any:
    """A block as the library wants it."""
    return ctypes.byref(STRUCTS["block"](block.cut_from, block.cut_to, block.start, block.end))


def _find_blocks(data: bytes, most: int) -> Tuple[Any, Any]:
    """The answer on the blocks of a file, and room with the first so many."""
    blocks = (STRUCTS["block"] * most)()
    return call("find_blocks", "blocks", data, len(data), blocks, 4 * most), blocks


def find_blocks(file: Source) -> Blocks:
    """The data blocks of a file, simple or compound. Refused: 19 to 25, 32, 33."""
    data, name = file_of(file, MOST_BYTES + 1)
    answer, blocks = _find_blocks(data, 16)
    if answer.refused:
        simple = call("read_file", "file", data, len(data), room_for(0), 0)
        raise refusal(answer, name, (simple.refused, simple.place) != (answer.refused, answer.place))
    if answer.blocks > len(blocks):
        answer, blocks = _find_blocks(data, answer.blocks)
    found = (Block(getattr(block, "from"), block.to, block.start, block.end) for block in blocks[: answer.blocks])
    return Blocks(bool(answer.compound), tuple(found))


def _need_block(answer: Any) -> None:
    """Says so if a block is none."""
    if answer.refused == ABSENT:
        raise ValueError("this block is none of this file: find_blocks finds them")


def read_block(file: Source, block: Block, *, room: Optional[int] = None) -> File:
    """
    Reads a data block that find_blocks has found in this file; places count in the whole file. Refused as read_file.
    """
    data, name = file_of(file, MOST_BYTES + 1)
    out = _room(room)
    answer = call("read_block", "file", data, len(data), _struct_of(block), out, len(out))
    _need_block(answer)
    if answer.refused:
        raise refusal(answer, name)
    return File(*_frame(answer), _listed(out, answer.points), *_exact(answer))


def find_in_block(file: Source, block: Block, name: Text) -> Optional[Record]:
    """The record with this name, its TITLE too, of a data block that find_blocks has found; None if it is absent."""
    data, path = file_of(file, MOST_BYTES + 1)
    label = text_of(name)
    return _record(call("find_in_block", "record", data, len(data), _struct_of(block), label, len(label)), data, path)


def read_profile(file: Source, page: Source, *, room: Optional[int] = None) -> Profile:
    """
    Reads a simple file as read_file does, and wants the fifteen records of the ion mobility profile, in the file or
    else on the site's page. Refused as read_file, and 30, 31; a refusal's on_page says in which of the two it counts.
    """
    data, name = file_of(file, MOST_BYTES + 1)
    site, site_name = file_of(page)
    out, shown = _room(room), (STRUCTS["shown"] * len(WANTED))()
    answer = call("read_profile", "profile", data, len(data), site, len(site), out, len(out), shown)
    if answer.refused:
        raise refusal(answer, (site_name or "page") if answer.on_page else name)
    texts = {}
    for label, part in zip(WANTED, shown):
        start, text = getattr(part, "from"), site if part.on_page else data
        texts[label] = Shown(text[start : part.to], start, part.to, bool(part.on_page))
    return Profile(*_frame(answer), _listed(out, answer.points), *_exact(answer), texts)


class Night(Iterator[Report]):
    """The reports of a spool, one after another; `totals` has the totals of what was seen so far."""

    def __init__(self, spool: bytes, name: str, room: Optional[int]) -> None:
        self._spool, self._name, self._out = spool, name, _room(room)
        self._progress, self._over = STRUCTS["progress"](), False

    @property
    def totals(self) -> Totals:
        """The totals of the files so far."""
        now = self._progress
        return Totals(now.seen, now.files, now.points, now.missing, now.sum)

    def __next__(self) -> Report:
        if self._over:
            raise StopIteration
        answer = call(
            "next_report",
            "report",
            self._spool,
            len(self._spool),
            self._out,
            len(self._out),
            ctypes.byref(self._progress),
        )
        if answer.ended:
            self._over = True
            if answer.refused:
                raise refusal(answer, self._name)
            raise StopIteration
        refused: Optional[Refused] = refusal(answer, f"file {self._progress.seen}") if answer.refused else None
        lowest, highest, faintest = (
            None if refused or y == MISSING else y for y in (answer.lowest, answer.highest, answer.faintest)
        )
        ordinates = _listed(self._out, answer.points)
        return Report(
            self._progress.seen,
            refused,
            answer.points,
            answer.missing,
            lowest,
            highest,
            answer.sum,
            faintest,
            ordinates,
        )


def night_reports(spool: Source, *, room: Optional[int] = None) -> Night:
    """
    The reports of a night's spool of files: an iterator, whose `totals` are those of what it has given so far. A file
    that is refused is a report with `refused`; at a fault of the spool itself, 34 to 36, Refused is raised after the
    last file.
    """
    return Night(*file_of(spool), room)


def detab_table(body: Text) -> bytes:
    """The body of a table from before tabs were refused, its tabs outside comments made spaces."""
    text = text_of(body)
    lent = (ctypes.c_char * len(text)).from_buffer_copy(text)
    library().lastarunc_detab_table(lent, len(text))
    return lent.raw


def detab_file(file: Source) -> Converted:
    """
    A file from before tabs were refused, the tabs of its table outside comments made spaces, every other byte as it
    was.
    """
    data, _ = file_of(file)
    lent = (ctypes.c_char * len(data)).from_buffer_copy(data)
    return Converted(has_body=bool(library().lastarunc_detab_file(lent, len(data))), text=lent.raw)
