#!/usr/bin/env python3
"""Turns imports of laws that moved from specs/ to proofs/ (tools/law_imports.json: crate, module, names, or "*" for all) to where they stand. Run at the top; it may be run again."""
import glob
import json
import os
import re

with open(os.path.join(os.path.dirname(os.path.abspath(__file__)), "law_imports.json"), encoding="utf-8") as it:
    MOVED = json.load(it)


def turned(line):
    """Returns the lines that stand for one line."""
    at = re.match(r"((?:pub )?(?:ghost )?use )Rattle\.(\w+)\.specs\.(\w+)(.*)$", line)
    if not at or at[3] not in MOVED.get(at[2], {}):
        return [line]
    names, rest = MOVED[at[2]][at[3]], at[4]
    to = f"{at[1]}Rattle.{at[2]}.proofs.{at[3]}"
    if names == "*":
        return [to + rest]
    group = re.fullmatch(r"\.\{(.*)\}(;?)", rest)
    if not group:
        print(f"look at this line by hand: {line}")
        return [line]
    words = [it.strip() for it in group[1].split(",") if it.strip()]
    gone = [it for it in words if it.split(" as ")[0] in names]
    left = [it for it in words if it not in gone]
    here = f"{at[1]}Rattle.{at[2]}.specs.{at[3]}"
    return [f"{base}.{{{', '.join(them)}}}{group[2]}" for base, them in ((here, left), (to, gone)) if them]


for path in sorted(glob.glob("crates/*/specs/*.antt") + glob.glob("crates/*/proofs/**/*.antt", recursive=True) + glob.glob("crates/*/src/*.rt")):
    with open(path, encoding="utf-8") as it:
        was = it.read()
    now = "\n".join(new for line in was.split("\n") for new in turned(line))
    if now != was:
        with open(path, "w", encoding="utf-8") as it:
            it.write(now)
        print(path)
