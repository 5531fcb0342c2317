"""
Reads and writes JCAMP-DX tables by a proved library.

    >>> import lastarunc
    >>> table = lastarunc.read_file("examples/files/gap.jdx")
    >>> table.points, table.first, table.last
    (8, Decimal('0.5'), Decimal('4'))
    >>> table.ordinates
    [10, 12, 14, 16, None, -3, -3, 250]

A missing ordinate is None, or masked in an array of numpy, and never 0. What the library refuses raises Refused, with
number, place, line, column and meaning. What it cannot even be asked, as an ordinate that is no whole number, is a
ValueError or a TypeError. On a machine that is not x86-64 Linux the first call raises Unavailable.
"""
from ._answers import (
    Block,
    Blocks,
    Converted,
    File,
    Profile,
    Record,
    Refused,
    Report,
    Shown,
    Table,
    Totals,
    WrittenFile,
)
from ._library import MOST_BYTES, MOST_POINTS, Unavailable
from ._reading import (
    WANTED,
    Night,
    detab_file,
    detab_table,
    find_blocks,
    find_in_block,
    find_record,
    night_reports,
    read_block,
    read_file,
    read_plain,
    read_profile,
    read_table,
)
from ._writing import file_length, text_length, write_file, write_table

__all__ = [
    "Block",
    "Blocks",
    "Converted",
    "File",
    "MOST_BYTES",
    "MOST_POINTS",
    "Night",
    "Profile",
    "Record",
    "Refused",
    "Report",
    "Shown",
    "Table",
    "Totals",
    "Unavailable",
    "WANTED",
    "WrittenFile",
    "detab_file",
    "detab_table",
    "file_length",
    "find_blocks",
    "find_in_block",
    "find_record",
    "night_reports",
    "read_block",
    "read_file",
    "read_plain",
    "read_profile",
    "read_table",
    "text_length",
    "write_file",
    "write_table",
]
