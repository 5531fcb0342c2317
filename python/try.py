#!/usr/bin/env python3
"""
python/try.py STREAM: holds the module to the header and to the second reader's answers in a stream of cases
(second/README.md has its layout), and tries what a stream has not. Run by python/run; its last line is 'N passed, M
failed'.
"""
import collections
import doctest
import os
import pickle
import re
import struct
import sys
import tempfile
from decimal import Decimal
from fractions import Fraction

ROOT = os.path.dirname(os.path.dirname(os.path.abspath(__file__)))
sys.path.insert(0, ROOT + "/python")
import lastarunc
from lastarunc import _library, _meanings

MISSING = -(2**31)
ABSENT = NO_FORM = 2**32 - 1
tallied = collections.Counter()


def need(truth, words):
    """Counts a test, and says which failed."""
    tallied[bool(truth)] += 1
    if not truth:
        print(f"python/try.py: {words}")


def answer_of(function, *words, **more):
    """What a function answers, and (0, 0, 0, 0); or None, and number, place, line and column of its refusal."""
    try:
        return function(*words, **more), (0, 0, 0, 0)
    except lastarunc.Refused as refused:
        return None, (refused.number, refused.place, refused.line, refused.column)


def raised(kind, function, *words, **more):
    """The words of an exception of this kind that a function raises, or None if it raises none."""
    try:
        function(*words, **more)
    except kind as error:
        return str(error)
    return None


class Stream:
    """A stream of the second reader's cases; each method tries a kind of case."""

    def __init__(self, data):
        self.data, self.at = data, 0

    def take(self, layout):
        """Numbers of a layout."""
        found = struct.unpack_from("<" + layout, self.data, self.at)
        self.at += struct.calcsize("<" + layout)
        return found

    def bytes(self, length):
        """So many bytes."""
        self.at += length
        return self.data[self.at - length : self.at]

    def text(self):
        """Bytes after their length."""
        return self.bytes(*self.take("I"))

    def ordinates(self, count):
        """Ordinates, None for a missing one."""
        return [None if y == MISSING else y for y in self.take(f"{count}i")]

    def refusal(self):
        """Number, place, line and column."""
        return self.take("IQQQ")

    def file_answer(self):
        """The refusal of a file, and its points, first, last, three words on exactness, ordinates."""
        refused, (points, first, last), exact = self.refusal(), self.take("Qqq"), self.take("III")
        return refused, (points, first, last, *map(bool, exact), self.ordinates(points))

    def same_file(self, here, right, words):
        """Is a file answered so?"""
        table, refused = here
        told = (0, 0, 0, False, False, False, [])
        if table:
            exact = table.first_exact, table.last_exact, table.firsty_exact
            told = (table.points, table.first_thousandths, table.last_thousandths, *exact, table.ordinates)
        need((refused, told) == right, f"{words}: {refused}, not {right[0]}")

    def body(self, words="a body", converted=None):
        """B, and T with its converted body."""
        (first, last, points, room), body = self.take("qqQI"), self.text()
        if converted is not None:
            body, old = lastarunc.detab_table(body), body
            need(body == self.bytes(len(old)), "an old body is converted otherwise")
        refused, (count,) = self.refusal(), self.take("Q")
        ordinates = self.ordinates(count)
        frame = Fraction(first, 1000), Fraction(last, 1000), points
        for read in (lastarunc.read_table, lastarunc.read_plain):
            table, told = answer_of(read, *frame, body, room=room)
            need(
                told == refused and (table.ordinates if table else []) == ordinates,
                f"{words} {body[:60]}: {told}, not {refused}",
            )

    def write(self):
        """W: a table that is written, and its length."""
        first, last, points, form, n = self.take("qqQII")
        ordinates, (room,) = self.ordinates(n), self.take("I")
        (number, _, length), text, measured = self.take("IQQ"), None, None
        text, measured = self.bytes(length), self.take("IQ")
        frame = Fraction(first, 1000), Fraction(last, 1000), ordinates
        if number == NO_FORM:
            need(raised(ValueError, lastarunc.write_table, *frame, form=str(form)), "a form that is none")
            return
        words = {"points": points, "form": ("difdup", "affn", "pac", "sqz")[form]}
        written, told = answer_of(lastarunc.write_table, *frame, room=room, **words)
        need(
            told == (number, 0, 0, 0) and (written or b"") == text,
            f"a table is written otherwise: {told}, not {number}",
        )
        length, told = answer_of(lastarunc.text_length, *frame, **words)
        need((told[0], length or 0) == measured, "the length of a table")
        if number == 0:
            need(lastarunc.write_table(*frame, **words) == text, "a table is written otherwise with enough room")

    def write_file(self):
        """V: a file that is written, and its length."""
        title, (points,), scales, (n,) = self.text(), self.take("Q"), self.take("10q"), self.take("I")
        ordinates, (room,) = self.ordinates(n), self.take("I")
        (number, _, _, _), exact, (length,) = self.take("IQqq"), self.take("III"), self.take("Q")
        text, measured = self.bytes(length), self.take("IQ")
        names = ("xfactor", "yfactor", "firstx", "lastx", "firsty")
        words = dict(zip(names, zip(scales[::2], scales[1::2])), points=points)
        written, told = answer_of(lastarunc.write_file, title, ordinates, room=room, **words)
        need(
            told == (number, 0, 0, 0) and (written.text if written else b"") == text,
            f"a file is written otherwise: {told}, not {number}",
        )
        if written:
            need(
                (written.first_exact, written.last_exact, written.firsty_exact) == tuple(map(bool, exact)),
                "what is exact in a written file",
            )
        length, told = answer_of(lastarunc.file_length, title, ordinates, **words)
        need((told[0], length or 0) == measured, "the length of a file")

    def file(self):
        """F: a file."""
        (room,), file = self.take("I"), self.text()
        self.same_file(answer_of(lastarunc.read_file, file, room=room), self.file_answer(), f"a file {file[:60]}")

    def old_file(self):
        """U: an old file, converted and read."""
        (room,), file = self.take("I"), self.text()
        converted, (has_body,) = self.bytes(len(file)), self.take("I")
        need(
            lastarunc.detab_file(file) == lastarunc.Converted(converted, bool(has_body)),
            "an old file is converted otherwise",
        )
        self.same_file(answer_of(lastarunc.read_file, converted, room=room), self.file_answer(), "an old file")

    def same_record(self, here, file, words):
        """Is a record answered so?"""
        refused, (start, end) = self.refusal(), self.take("QQ")
        right = (
            (None, (0, 0, 0, 0))
            if refused[0] == ABSENT
            else (None, refused)
            if refused[0]
            else (lastarunc.Record(file[start:end], start, end), refused)
        )
        need(here == right, f"{words}: {here}, not {right}")

    def record(self):
        """R: a record."""
        file, name = self.text(), self.text()
        self.same_record(answer_of(lastarunc.find_record, file, name), file, "a record")

    def block_record(self):
        """K: a record of a block."""
        file, (k,), name = self.text(), self.take("Q"), self.text()
        found, told = answer_of(lastarunc.find_blocks, file)
        if found and k < len(found.blocks):
            found, told = answer_of(lastarunc.find_in_block, file, found.blocks[k], name)
        else:
            found = None
        self.same_record((found, told), file, "a block's record")

    def compound(self):
        """C: the blocks of a file."""
        (room,), file = self.take("I"), self.text()
        refused, (compound, count) = self.refusal(), self.take("IQ")
        found, told = answer_of(lastarunc.find_blocks, file)
        here = (found.compound, len(found.blocks)) if found else (False, 0)
        need(
            (told, here) == (refused, (bool(compound), count)),
            f"the blocks of a file: {told} {here}, not {refused} {compound} {count}",
        )
        for k in range(count):
            extent, block = self.take("QQ"), found.blocks[k]
            need((block.cut_from, block.cut_to) == extent, "where a block is cut")
            self.same_file(answer_of(lastarunc.read_block, file, block, room=room), self.file_answer(), "a block")

    def profile(self):
        """P: a file with its profile."""
        (room,), file, page = self.take("I"), self.text(), self.text()
        refused, (on_page,) = self.refusal(), self.take("I")
        found, told = answer_of(lastarunc.read_profile, file, page, room=room)
        need(told == refused, f"a profile: {told}, not {refused}")
        if refused[0]:
            where = [error.on_page for error in [refused_of(lastarunc.read_profile, file, page, room=room)]]
            need(where == [bool(on_page)], "whether a profile's refusal counts in the page")
            return
        points, *frame = self.take("QqqIII")
        shown = [self.take("IQQ") for _ in lastarunc.WANTED]
        texts = [(int(part.on_page), part.start, part.end) for part in found.texts.values()]
        need(texts == shown and tuple(found.texts) == lastarunc.WANTED, "the texts of a profile")
        need(
            all(part.text == (page if part.on_page else file)[part.start : part.end] for part in found.texts.values()),
            "a text",
        )
        need((found.points, found.ordinates) == (points, self.ordinates(points)), "the table of a profile")
        need(
            [found.first_thousandths, found.last_thousandths, found.first_exact, found.last_exact, found.firsty_exact]
            == frame,
            "its frame",
        )

    def level(self):
        """A level, or None."""
        there, level = self.take("Iq")
        return level if there else None

    def spool(self):
        """N: a spool."""
        (room,), spool = self.take("I"), self.text()
        night = lastarunc.night_reports(spool, room=room)
        for number in range(1, self.take("I")[0] + 1):
            (_, *refused), report = self.take("QIQQQ"), next(night)
            told = (
                [report.refused.number, report.refused.place, report.refused.line, report.refused.column]
                if report.refused
                else [0] * 4
            )
            need((report.number, told) == (number, refused), f"file {number} of a spool: {told}, not {refused}")
            if not refused[0]:
                right = *self.take("QQ"), self.level(), self.level(), *self.take("q"), self.level()
                here = report.points, report.missing, report.lowest, report.highest, report.sum, report.faintest
                need(
                    here == right and digest(report.ordinates) == self.take("Q")[0],
                    f"the report of file {number}: {here}, not {right}",
                )
        totals, ended = self.take("QQQq"), self.take("IQ")
        rest, told = answer_of(list, night)
        need((told[:2], rest or []) == (ended, []), "how a spool ended")
        now = night.totals
        need((now.files, now.points, now.missing, now.sum) == totals, "the totals of a spool")

    def run(self):
        """Every case; how many of each kind."""
        kinds = {
            "B": self.body,
            "W": self.write,
            "F": self.file,
            "R": self.record,
            "V": self.write_file,
            "C": self.compound,
            "K": self.block_record,
            "P": self.profile,
            "T": lambda: self.body("an old body", True),
            "U": self.old_file,
            "N": self.spool,
        }
        seen = collections.Counter()
        while self.at < len(self.data):
            kind = self.bytes(1).decode()
            seen[kind] += 1
            kinds[kind]()
        print("cases of the second reader:", ", ".join(f"{seen[kind]} {kind}" for kind in kinds))
        need(all(seen[kind] for kind in kinds), "a kind of case does not occur")


def digest(ordinates):
    """FNV-1a of ordinates in four bytes each."""
    mix = 0xCBF29CE484222325
    for byte in struct.pack(f"<{len(ordinates)}i", *(MISSING if y is None else y for y in ordinates)):
        mix = (mix ^ byte) * 0x100000001B3 % 2**64
    return mix


def refused_of(function, *words, **more):
    """The refusal that a function raises."""
    try:
        function(*words, **more)
    except lastarunc.Refused as refused:
        return refused
    return lastarunc.Refused(0, 0, 0, 0, "accepted")


def header():
    """The structs, functions, limits and wanted records are those of the header, and each refusal has its words."""
    text = re.sub(r"/\*.*?\*/", "", open(ROOT + "/include/lastarunc.h", encoding="utf-8").read(), flags=re.S)
    structs = {
        name: re.findall(r"(\w+)(?=[,;])", fields)
        for name, fields in re.findall(r"struct lastarunc_(\w+) \{(.*?)\}", text, re.S)
    }
    ours = {name: [field[0] for field in kind._fields_] for name, kind in _library.STRUCTS.items()}
    need(structs == ours, f"the structs: {ours}")
    kind = (
        lambda word: "p"
        if "*" in word or "[" in word
        else {"int64_t": "i", "uint64_t": "u", "size_t": "z"}[word.split()[0]]
    )
    found = {
        name: "".join(kind(word.strip()) for word in words.split(","))
        for name, words in re.findall(r"^\w+ lastarunc_(\w+)\((.*?)\);", text, re.S | re.M)
    }
    need(found == _library.FUNCTIONS and len(found) == 16, f"the functions: {found}")
    for name in ("MOST_POINTS", "MOST_BYTES"):
        need(f"#define LASTARUNC_{name} {getattr(lastarunc, name)}\n" in text, name)
    wanted = re.findall(r"LASTARUNC_(\w+)", text.split("enum lastarunc_wanted {")[1].split("LASTARUNC_WANTED")[0])
    need([re.sub(r"\W", "_", name.strip(".")) for name in lastarunc.WANTED] == wanted, "the wanted records")
    numbers = set(re.findall(r"^\| (\d+) \|", open(ROOT + "/docs/REFUSALS.md", encoding="utf-8").read(), re.M))
    need(
        numbers == {str(number) for number in (*_meanings.READ, *_meanings.WRITTEN)},
        "a refusal has no words, or words are no refusal's",
    )


def refusals():
    """A refusal has all that is wanted, reads as check's line, and can be sent to another process."""
    path = ROOT + "/examples/files/difference_after_gap.jdx"
    refused = refused_of(lastarunc.read_file, path)
    words = "a difference or a repeat cannot stand here, or repeats fewer than 2"
    need(
        (refused.number, refused.place, refused.line, refused.column, refused.meaning, refused.on_page)
        == (8, 123, 9, 4, words, False),
        "a refusal",
    )
    need(str(refused) == f"{path}:9:4: refused 8: {words}", f"{refused}")
    need(str(pickle.loads(pickle.dumps(refused))) == str(refused), "a refusal that was pickled")
    need(str(refused_of(lastarunc.read_table, 0, 3, 4, "0A?J1")) == f"1:4: refused 8: {words}", "a body's refusal")
    need(
        str(refused_of(lastarunc.write_table, 0, 3, [])).startswith("refused 1: the frame is outside"),
        "a writer's refusal",
    )
    need(
        str(refused_of(lastarunc.find_blocks, ROOT + "/programs/files/deep.jdx")).find(
            ": refused 24: a block cannot begin here"
        )
        > 0,
        "a compound file's refusal",
    )
    profile = refused_of(
        lastarunc.read_profile, ROOT + "/examples/profile/unlisted.jdx", ROOT + "/examples/profile/site.page"
    )
    need(profile.number == 31 and profile.name.endswith(".page" if profile.on_page else ".jdx"), f"{profile}")
    spool = refused_of(list, lastarunc.night_reports(b"JD\0\0\3abcJ"))
    need(str(spool) == "byte 8: refused 35: the spool ends within this record", f"{spool}")
    need(isinstance(refused, Exception) and refused_of(lastarunc.read_file, b"").number == 21, "an empty file")


def what_is_given():
    """Numbers, texts, ordinates as people give them; what cannot be asked is an error, and nothing given is altered."""
    given = [1, 12, None, 12]
    for first in (-0.5, "-0.5", Decimal("-0.50"), Fraction(-1, 2), (-5, -1)):
        need(
            lastarunc.write_table(first, 2, given) == b"-0.5AJ1?A2\r\n",
            f"first as {first!r}: {lastarunc.write_table(first, 2, given)}",
        )
    table = lastarunc.read_table("0.5", Decimal(4), 4, bytearray(b"0.5 1 12 ? 0\n"))
    need(
        (table.ordinates, table.missing, str(table.first), str(table.last)) == ([1, 12, None, 0], 1, "0.5", "4"),
        f"{table}",
    )
    need(str(lastarunc.read_table("-1.25", 2, 2, "-1.25 1 2").first) == "-1.25", "a first below 0")
    for wrong in ([1.0], ["1"], [float("nan")]):
        need(
            "no whole number, and a missing one is None"
            in (raised(TypeError, lastarunc.write_table, 0, 3, wrong) or ""),
            f"ordinate {wrong}",
        )
    for wrong in ([2**31], [MISSING]):
        need("beyond 2147483647" in (raised(ValueError, lastarunc.write_table, 0, 3, wrong) or ""), f"ordinate {wrong}")
    for wrong in (0.0005, "x", float("nan"), Fraction(1, 3), "1e-999999999", None):
        need(raised(ValueError, lastarunc.write_table, wrong, 3, given), f"first {wrong}")
    need(refused_of(lastarunc.write_table, "1e999999999", 3, given).number == 1, "a first beyond all limits")
    need(raised(ValueError, lastarunc.read_table, 0, 3, -1, b""), "points below 0")
    need(raised(TypeError, lastarunc.read_table, 0, 3, 4.0, b""), "points as a float")
    need(raised(TypeError, lastarunc.read_file, 5), "a file that is a number")
    need(raised(FileNotFoundError, lastarunc.read_file, "nowhere.jdx"), "no file")
    need(
        refused_of(lastarunc.write_file, "50 $$ off", given, firstx=0, lastx=3).number == 37
        and given == [1, 12, None, 12],
        "a list is altered",
    )
    old = bytearray(b"0\tA")
    need(lastarunc.detab_table(old) == b"0 A" and old == b"0\tA", "an old body is altered")
    need(raised(ValueError, lastarunc.read_block, b"##TITLE=", lastarunc.Block(0, 0, 9, 0)), "a block that is none")


def files():
    """Files of the full size and one byte more, of 65,536 points; written and read back, by their paths."""
    ordinates = [None if i % 777 == 5 else (i * i) % 4001 - 2000 for i in range(65536)]
    written = lastarunc.write_file("all points", ordinates, firstx="0.25", lastx=1e3, xfactor=0.5, yfactor="2.50")
    need(
        len(written.text)
        == lastarunc.file_length("all points", ordinates, firstx="0.25", lastx=1e3, xfactor=0.5, yfactor="2.50"),
        "length",
    )
    with tempfile.TemporaryDirectory() as folder:
        path = folder + "/all.jdx"
        with open(path, "wb") as out:
            out.write(written.text)
        table = lastarunc.read_file(path)
        need(
            (table.ordinates, str(table.first), str(table.last)) == (ordinates, "0.5", "2000"),
            "all points are not read back",
        )
        for length, number in ((lastarunc.MOST_BYTES, 0), (lastarunc.MOST_BYTES + 1, 19)):
            with open(path, "wb") as out:
                out.write(written.text.ljust(length))
            need(refused_of(lastarunc.read_file, path).number == number, f"a file of {length} bytes")
    need(lastarunc.find_record(written.text, "y factor").text.strip() == b"250E-02", "YFACTOR")
    need(lastarunc.find_record(written.text, "OWNER") is None, "a record that is absent")


def arrays():
    """A missing ordinate is masked in an array, and no 0 behind the mask; an array is written as it is masked."""
    table = lastarunc.read_file(ROOT + "/examples/files/gap.jdx")
    kept, sys.modules["numpy"] = sys.modules.pop("numpy", None), None
    need("array() wants numpy" in (raised(ImportError, table.array) or ""), "no numpy")
    sys.modules.pop("numpy")
    if kept:
        sys.modules["numpy"] = kept
    try:
        import numpy
    except ImportError:
        print("this Python has no numpy: arrays are not tried")
        return
    array = table.array()
    need(array.tolist() == table.ordinates and array.dtype == numpy.int32, f"{array!r}")
    need(
        array.data[4] == MISSING
        and array.filled()[4] == MISSING
        and array.sum() == sum(y for y in table.ordinates if y is not None),
        "behind the mask",
    )
    need(
        lastarunc.write_table(0.5, 4, array) == lastarunc.write_table(0.5, 4, table.ordinates),
        "a masked array is written otherwise",
    )
    need(
        lastarunc.write_table(0, 1, numpy.array([1, 2], dtype=numpy.int64))
        == lastarunc.write_table(0, numpy.int64(1), [1, 2]),
        "an array",
    )
    need(raised(TypeError, lastarunc.write_table, 0, 1, numpy.array([1, numpy.nan])), "an array of floats")
    need(lastarunc.write_table(0.5, 4, list(array)) == lastarunc.write_table(0.5, 4, array), "a list of a masked array")


def pages():
    """The sessions that are shown are what happens; every name has its docstring."""
    os.chdir(ROOT)
    for failed, tried in (
        doctest.testmod(lastarunc),
        doctest.testfile(ROOT + "/python/README.md", module_relative=False),
        doctest.testfile(ROOT + "/README.md", module_relative=False),
    ):
        need(tried and not failed, "a session that is shown goes otherwise")
    need(all(getattr(lastarunc, name).__doc__ for name in lastarunc.__all__), "a name without a docstring")
    need(sorted(name for name in vars(lastarunc) if name[0] != "_") == sorted(lastarunc.__all__), "__all__")


def main():
    """Runs all."""
    for part in (header, refusals, what_is_given, files, arrays, pages, Stream(open(sys.argv[1], "rb").read()).run):
        part()
    print(f"{tallied[True]} passed, {tallied[False]} failed")
    sys.exit(1 if tallied[False] else 0)


main()
