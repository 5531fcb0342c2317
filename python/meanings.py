#!/usr/bin/env python3
"""
Prints python/lastarunc/_meanings.py, made of programs/refusals.c: the words are written there only. `python/run`
compares.
"""
import os
import re

HERE = os.path.dirname(os.path.abspath(__file__))
STRINGS = r'((?:\s*"(?:[^"\\]|\\.)*")+)'
PARTS = (
    (
        "READ",
        "What a number means to those who read a simple file or a data block.",
        r"read_words\[\] = \{(.*?)\n\};",
        r"\[(\d+)\] =",
    ),
    (
        "COMPOUND",
        "What a number means of a compound file, if not the same.",
        r"compound_meaning\(int64_t number\)\n\{(.*?)\n\}",
        r"number == (\d+)\)\s*return",
    ),
    ("WRITTEN", "What a number means to those who write.", r"write_words\[\] = \{(.*?)\n\};", r"\[(\d+)\] ="),
)


def words(text):
    """One string of C's strings that stand one after another."""
    return "".join(re.findall(r'"((?:[^"\\]|\\.)*)"', text)).replace('\\"', '"')


def main():
    """Prints the module."""
    source = open(HERE + "/../programs/refusals.c", encoding="utf-8").read()
    print('"""What each refusal means. Made of programs/refusals.c by python/meanings.py: mend the words there."""')
    for name, told, part, entry in PARTS:
        found = re.search(part, source, re.S).group(1)
        print(f"\n# {told}\n{name} = {{")
        for number, text in re.findall(entry + STRINGS, found):
            print(f'    {number}: "{words(text)}",')
        print("}")


main()
