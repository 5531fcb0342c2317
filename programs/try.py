#!/usr/bin/env python3
"""programs/try.py FOLDER PROGRAM ..: what the command's programs say of many files, held to the second reader, to each other and to what a picture must show. Run by programs/run; its last line is 'N passed, M failed'."""
import os
import random
import re
import shutil
import struct
import subprocess
import sys
import tempfile
import xml.etree.ElementTree as tree

ROOT = os.path.dirname(os.path.dirname(os.path.abspath(__file__)))
SECOND = ROOT + "/target/second/release/second"
FOLDER, PROGRAM = sys.argv[1], sys.argv[2:]
MISSING = None
SVG = "{http://www.w3.org/2000/svg}"
tallied = {True: 0, False: 0}


def need(truth, words):
    """Counts a test, and says which failed."""
    tallied[bool(truth)] += 1
    if not truth:
        print(f"programs/try.py: {words}")


def run(words, given=b"", program=None):
    """Status, standard output and standard error of a program."""
    ended = subprocess.run([*(program or PROGRAM), *map(str, words)], input=given, capture_output=True)
    return ended.returncode, ended.stdout, ended.stderr.decode("latin-1")


def second(words, given):
    """The lines that the second reader prints."""
    return run(words, given, [SECOND])[1].decode("latin-1").split("\n")


def same_words():
    """The meanings of crates/refusal_words are those of refusals.c."""
    report = open(ROOT + "/crates/refusal_words/src/lib.rt", encoding="utf-8").read()
    ours = dict(re.findall(r'\[(\d+)\] = "(.*)"', open(ROOT + "/programs/refusals.c", encoding="utf-8").read().split("write_words")[0]))
    theirs = re.findall(r'(\S+) => "(.*)",', report)
    others = {"0..=18": "16", "_": "29"}
    for number, words in theirs:
        number = others.get(number, number)
        need(ours.get(number) == words, f"refusal {number} means {words!r} in crates/refusal_words, {ours.get(number)!r} here")
    need(len(theirs) == 25, f"crates/refusal_words has words for {len(theirs)} refusals, not for 25")
    numbers = set(re.findall(r"^\| (\d+) \|", open(ROOT + "/docs/REFUSALS.md", encoding="utf-8").read(), re.M)) - {"15", "37"}
    need(numbers <= set(ours), f"no words for {numbers - set(ours)}")


class Stream:
    """The files in a stream of the second reader's cases; second/README.md has the layout."""

    def __init__(self, data):
        self.data, self.at = data, 0

    def take(self, layout):
        """Numbers of a layout."""
        found = struct.unpack_from("<" + layout, self.data, self.at)
        self.at += struct.calcsize("<" + layout)
        return found

    def text(self):
        """Bytes after their length."""
        (length,) = self.take("I")
        self.at += length
        return self.data[self.at - length : self.at]

    def table(self):
        """Passes over the answer to a file."""
        points = self.take("IQQQQqqIII")[4]
        self.at += 4 * points

    def files(self):
        """Each file to read, compound or simple."""
        while self.at < len(self.data):
            (kind,) = self.take("c")
            if kind in b"FC":
                self.take("I")
            file = self.text()
            if kind == b"F":
                self.table()
            if kind == b"C":
                for _ in range(self.take("IQQQIQ")[5]):
                    self.take("QQ")
                    self.table()
            if kind == b"K":
                self.take("Q")
            if kind in b"RK":
                self.text()
                self.take("IQQQQQ")
            if kind in b"FC":
                yield file


def decimal(thousandths):
    """Thousandths as a decimal with no needless zero."""
    size = f"{abs(thousandths) // 1000}.{abs(thousandths) % 1000:03}".rstrip("0").rstrip(".")
    return "-" + size if thousandths < 0 else size


def expected_of(path, file):
    """What check prints of a file without titles, words and lines shown, from what the second reader prints."""
    lines, told, prefix = second(["compound"], file), [], path + ":"
    for at, line in enumerate(lines):
        words = line.split()
        if line.startswith("compound"):
            told.append(f"{path}: compound, {words[1]} data block{'' if words[1] == '1' else 's'}")
        elif line.startswith("block") and told:
            prefix = f"{path}: block {int(words[1]) + 1}"
        elif line.startswith("ok"):
            n, first, last = map(int, words[1:])
            lost = lines[at + 1 : at + 1 + n].count("?")
            told.append(f"{prefix} ok, {n} point{'' if n == 1 else 's'}, {decimal(first)} to {decimal(last)}" + (f", {lost} missing" if lost else ""))
        elif line.startswith("refused"):
            number, _, row, column = words[1:]
            told.append(f"{path}:{row}:{column}:{prefix[len(path) + 1 :]} refused {number}")
    return told


def told_by_check(printed, path):
    """What check printed of a file: without titles, `(rounded)`, words, lines shown and carets."""
    told = []
    for line in printed.split("\n"):
        if line.startswith(path + ":"):
            line = re.sub(r"(block \d+) \(.*?\)(?=: (ok,|refused \d))", r"\1", line).replace(" (rounded)", "")
            told.append(re.sub(r"(block \d+): ", r"\1 ", re.sub(r"(refused \d+): .*", r"\1", line)))
    return told


def well_formed(path):
    """The picture of a generated file is XML, of bytes 32 to 126 and line ends."""
    status, picture, _ = run(["plot", path])
    need(status == 0 and set(picture) <= {10, *range(32, 127)}, f"plot {path}")
    tree.fromstring(picture)


def same_answers():
    """check says of generated files, simple and compound, what the second reader says."""
    stream = run(["cases", "--seed", 29, "--files", 250, "--compound", 250], program=[SECOND])[1]
    paths = []
    for number, file in enumerate(Stream(stream).files()):
        paths.append((f"{FOLDER}/case{number}.", file))
        with open(paths[-1][0], "wb") as out:
            out.write(file)
    need(len(paths) == 500, f"{len(paths)} files, not 500")
    status, printed, errors = run(["check", *(path for path, _ in paths)])
    printed, right = printed.decode("latin-1"), 0
    blocks = {}
    for line in printed.split("\n"):
        blocks.setdefault(line.split(":")[0], []).append(line)
    for path, file in paths:
        told = told_by_check("\n".join(blocks.get(path, [])), path)
        expected = expected_of(path, file)
        need(told == expected, f"{path}: check says {told}, the second reader {expected}")
        right += not any("refused" in line for line in expected)
        if right <= 80 and expected and " ok, " in expected[-1] and len(expected) == 1:
            well_formed(path)
    need(status == 1 and not errors, f"check ended with {status}, and said {errors!r}")
    need(f"500 files: {right} accepted, {500 - right} refused" in printed.split("\n")[-2], "the last line has other counts")
    need(100 < right < 400, f"{right} of 500 files are accepted, which tries little")


def random_ordinates(points):
    """Ordinates with gaps, jumps and repeats."""
    found, y = [], 0
    while len(found) < points:
        y = random.choice([y, y + random.randint(-9, 9), random.randint(-(2**31) + 1, 2**31 - 1)])
        y = max(-(2**31) + 1, min(2**31 - 1, y))
        found += [random.choice([y, y, y, MISSING])] * random.choice([1, 1, 1, 2, 5])
    return found[:points]


def words_of(ys):
    """Ordinates as text."""
    return ["?" if y is MISSING else str(y) for y in ys]


def written_tables():
    """Each table that write writes is the second writer's, and the second reader reads it back."""
    for number in range(40):
        form, n = ["difdup", "affn", "pac", "sqz"][number % 4], random.choice([1, 2, 7, 60, 400])
        first = random.randint(-(10**6), 10**6)
        last = first if n == 1 else first + random.choice([-1, 1]) * random.randint(1, 10**7)
        ys = words_of(random_ordinates(n))
        frame = [first, last, n]
        given = random.choice([" ", ", ", "\n", "\r\n", "\t"]).join(ys).encode()
        status, text, errors = run(["write", "--form", form, "--first", decimal(first), "--last", decimal(last)], given)
        need(status == 0 and not errors, f"write {form} {frame}: {errors}")
        answer = run(["write", form, *frame], " ".join(ys).encode(), [SECOND])[1]
        need(answer == b"ok %d\n" % len(text) + text, f"write {form} {frame} is not what the second writer writes")
        need(second(["body", *frame], text)[:-1] == [f"ok {n} {first} {last}", *ys], f"{form} {frame} is not read back")


def written_files():
    """Each file that write writes is accepted by check, and the second reader reads it back."""
    for number in range(12):
        n, path = random.choice([2, 9, 300]), f"{FOLDER}/written{number}"
        ys = [random.choice(["?", "-12", "73000"]), *words_of(random_ordinates(n - 1))]
        scales = ["--xfactor", "0.5", "--yfactor", random.choice(["1", "0.01", "2e3"]), "--firstx", "-1.5", "--lastx", n]
        with open(path, "wb") as out:
            out.write(run(["write", "--file", "--title", f"file {number}", *scales], " ".join(ys).encode())[1])
        need(second(["file", "--whole"], open(path, "rb").read())[:-1] == [f"ok {n} -3000 {2000 * n}", *ys], f"{path} is not read back")
        need(run(["check", "--quiet", path]) == (0, b"", ""), f"check does not accept {path}")


def write_spectrum(name, ys):
    """A file of these ordinates, from 0 to 10; its path."""
    path = f"{FOLDER}/{name}.jdx"
    status, text, errors = run(["write", "--file", "--title", name, "--firstx", 0, "--lastx", 10], "\n".join(words_of(ys)).encode())
    need(status == 0, f"{name} is not written: {errors}")
    with open(path, "wb") as out:
        out.write(text)
    return path


def drawn(path):
    """A picture: the bands, the pieces of the line and the dots, as pairs of places, and how many bytes it has."""
    status, picture, errors = run(["plot", path])
    need(status == 0 and not errors, f"plot {path}: {errors}")
    root = tree.fromstring(picture)
    parts = {part.get("id"): part for part in root.iter() if part.get("id")}
    bands = [[float(x) for x in re.match(r"M([\d.]+),[\d.]+H([\d.]+)V", band.get("d")).groups()] for band in parts["missing"]]
    pair = lambda text: tuple(float(x) for x in text.split(","))
    line = [[pair(point) for point in piece.split("L")] for piece in parts["line"].get("d").split("M")[1:]]
    dots = [pair(dot[:-2]) for dot in parts["dots"].get("d").split("M")[1:]]
    return bands, line, dots, len(picture)


def runs(ys, missing):
    """The runs of ordinates that are missing, or that are there: from a number up to another."""
    edges = [i for i in range(len(ys) + 1) if i in (0, len(ys)) or (ys[i] is MISSING) != (ys[i - 1] is MISSING)]
    return [(a, b) for a, b in zip(edges, edges[1:]) if (ys[a] is MISSING) == missing]


def small_pictures():
    """In a picture of a few hundred points every point is drawn in its place, and every gap has its band."""
    for number in range(12):
        ys = [1, MISSING] + random_ordinates(random.choice([5, 90, 300]))[:300] + [MISSING, MISSING, 7, MISSING, 9]
        bands, line, dots, _ = drawn(write_spectrum(f"picture{number}", ys))
        gaps, pieces = runs(ys, True), [run for run in runs(ys, False) if run[1] - run[0] > 1]
        need(len(bands) == len(gaps), f"picture {number}: {len(bands)} bands, {len(gaps)} gaps")
        need([len(piece) for piece in line] == [b - a for a, b in pieces], f"picture {number}: the line is broken elsewhere")
        points = [place for piece in line for place in piece] + dots
        numbers = [i for a, b in pieces for i in range(a, b)]
        alone = [a for a, b in runs(ys, False) if b - a == 1 or len(ys) <= 100 for a in range(a, b)]
        need(len(dots) == len(alone), f"picture {number}: {len(dots)} dots, not {len(alone)}")
        need(in_place(ys, list(zip(numbers + alone, points))), f"picture {number}: a point is out of place")
        need(all(left < x < right for (left, right), (a, b) in zip(bands, gaps) for x in [middle(ys, points, numbers + alone, a, b)]), f"picture {number}: a band is out of place")


def scale_of(pairs):
    """The straight line through the outermost of some pairs: what 0 gives, and what one more gives."""
    low, high = min(pairs), max(pairs)
    slope = (high[1] - low[1]) / (high[0] - low[0]) if high[0] != low[0] else 0
    return low[1] - slope * low[0], slope


def in_place(ys, numbered):
    """Do places follow the numbers of points across, and their ordinates upward, on straight scales?"""
    across = [(i, x) for i, (x, _) in numbered]
    upward = [(ys[i], y) for i, (_, y) in numbered]
    return all(abs(start + slope * a - b) < 0.2 for pairs in (across, upward) for start, slope in [scale_of(pairs)] for a, b in pairs)


def middle(ys, points, numbers, a, b):
    """Where the middle of a gap must stand."""
    start, slope = scale_of([(i, x) for i, (x, _) in zip(numbers, points)])
    low, high = max(a - 0.5, 0), min(b - 0.5, len(ys) - 1)
    return start + slope * (low + high) / 2


def large_pictures():
    """Of 65,536 points neither a single count nor a single gap vanishes, and the picture stays light."""
    ys = [0] * 65536
    ys[0], ys[40000], ys[50000] = 100, -100, 1
    for i in (10000, 20001, 65535):
        ys[i] = MISSING
    path = write_spectrum("large", ys)
    need(run(["check", path])[1].split(b"\n")[0].endswith(b": ok, 65536 points, 0 to 10, 3 missing"), "check of 65,536 points")
    bands, line, dots, size = drawn(path)
    heights = {y for piece in line for _, y in piece}
    need(len(bands) == 3 and all(right - left > 1.8 for left, right in bands), f"the bands of three gaps are {bands}")
    need(len(line) == 3 and not dots and len(heights) == 4, f"{len(line)} pieces of line, {len(dots)} dots, heights {heights}")
    need(size < 60000, f"the picture has {size} bytes")
    bands, line, dots, size = drawn(write_spectrum("alternate", [i % 977 if i % 2 else MISSING for i in range(65536)]))
    need(bands and not line and len(dots) > 1000 and size < 100000, f"every other point is missing: {len(dots)} dots, {size} bytes")


def full_size():
    """A file of the full size is read, and one byte more is refused."""
    file = open(ROOT + "/programs/files/cr_lf.jdx", "rb").read()
    for more, told in ((0, ": ok, 4 points, 0 to 3"), (1, ":1:1: refused 19: the file is too long")):
        path = f"{FOLDER}/full{more}"
        with open(path, "wb") as out:
            out.write(file + b" " * (1048576 - len(file) + more))
        status, printed, _ = run(["check", path])
        need((status, printed.decode().split("\n")[0]) == (more, path + told), f"full size and {more}: {printed[:200]}")


def not_permitted():
    """A file that may not be read is said, and the others go on; root tries it as nobody."""
    drop = ["setpriv", "--reuid=65534", "--regid=65534", "--clear-groups"] if os.geteuid() == 0 else []
    given = open(ROOT + "/programs/files/cr_lf.jdx", "rb").read()
    with tempfile.TemporaryDirectory() as folder:
        os.chmod(folder, 0o755)
        path, copy = folder + "/secret", shutil.copy(PROGRAM[-1], folder)
        with open(path, "w", encoding="utf-8") as out:
            out.write("secret")
        os.chmod(path, 0)
        ended = run(["check", path, "-"], given, [*drop, *PROGRAM[:-1], copy])
    need(ended[0] == 1 and ended[2] == path + ": Permission denied\n" and b"standard input: ok" in ended[1], f"without permission: {ended}")


def helps():
    """Each page of help is printed as it stands in its file, and the version has the kit's identity."""
    for page, words in (("lastarunc", ["--help"]), ("check", ["check", "--help"]), ("plot", ["plot", "-h"]), ("write", ["write", "--help"])):
        text = open(f"{ROOT}/programs/help/{page}.txt", "rb").read()
        need(run(words) == (0, text, ""), f"help of {page}")
        need(all(len(line) <= 120 for line in text.split(b"\n")), f"help of {page} is too wide")
    kit = open(ROOT + "/kit", encoding="utf-8").read().strip()
    for words in (["--version"], ["plot", "--version"]):
        need(re.fullmatch(rf"lastarunc \S+, proved with {re.escape(kit)}\n", run(words)[1].decode()), f"the version: {words}")


def readme():
    """What README shows under "At the command line" is what is printed; not for --version, which each commit changes."""
    shown = open(ROOT + "/README.md", encoding="utf-8").read().split("## At the command line\n")[1].split("\n## ")[0]
    for command, printed in re.findall(r"^    \$ (.*)\n((?:    (?!\$ ).*\n)*)", shown, re.M):
        if "--version" in command or ">" in command:
            continue
        ended = subprocess.run(["bash", "-c", command], cwd=ROOT, stdout=subprocess.PIPE, stderr=subprocess.STDOUT)
        expected = "".join(line[4:] + "\n" for line in printed.split("\n")[:-1])
        need(ended.stdout.decode().replace("\r\n", "\n") == expected, f"README shows something else for {command}")


def main():
    """Runs all."""
    random.seed(29)
    for part in (same_words, same_answers, written_tables, written_files, small_pictures, large_pictures, full_size, not_permitted, helps, readme):
        part()
    print(f"{tallied[True]} passed, {tallied[False]} failed")


main()
