"""PyMca's JCAMP-DX reader (Debian's python3-pymca5) beside the library, for benchmark/others:

    pymca.py time FOLDER COUNT   reads the files FOLDER/0 .. in turn; nanoseconds a byte, the least and the median of
                                 nine, and how many points are not those that the files were made from
    pymca.py answer FILE         reads a file, and prints its ordinates and what it logs
"""

import io
import logging
import sys
import time

from PyMca5.PyMcaIO.JcampReader import JcampReader

WARM_UP, ROUNDS = 1, 9


def ordinates(text):
    """The ordinates of a file, which has YFACTOR 1."""
    return JcampReader(io.StringIO(text)).data[1]


def differing(read, path):
    """How many of the ordinates that a file was made from are read as something else, or not at all."""
    with open(path, encoding="ascii") as lines:
        wanted = [line.strip() for line in lines]
    same = sum(1 for y, w in zip(read, wanted) if w != "?" and y == float(w))
    return len(wanted) - same


def time_files(folder, count):
    texts = []
    wrong = 0
    for k in range(count):
        with open(f"{folder}/{k}", encoding="ascii", newline="") as file:
            texts.append(file.read())
        wrong += differing(ordinates(texts[k]), f"{folder}/{k}.ordinates")
    size = sum(len(text) for text in texts)
    taken = []
    for turn in range(WARM_UP + ROUNDS):
        before = time.process_time_ns()
        for text in texts:
            ordinates(text)
        if turn >= WARM_UP:
            taken.append((time.process_time_ns() - before) / size)
    taken.sort()
    print(f"{taken[0]:.3f} {taken[ROUNDS // 2]:.3f} {wrong}")


def answer(path):
    log = io.StringIO()
    logging.basicConfig(stream=log, level=logging.WARNING, format="%(message)s")
    try:
        with open(path, encoding="ascii", newline="") as file:
            read = ordinates(file.read())
    except Exception as error:
        print(f"throws {error!r}")
        return
    words = " ".join(f"{y:g}" for y in read)
    print(words + ("; logs: " + " ".join(log.getvalue().split()) if log.getvalue() else ""))


if sys.argv[1] == "time":
    logging.disable(logging.WARNING)
    time_files(sys.argv[2], int(sys.argv[3]))
else:
    answer(sys.argv[2])
