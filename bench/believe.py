#!/usr/bin/env python3
"""Counts the files of definitions that the clauses of `run` stand on: what a reader has to believe.

believe.py [--list]

Begins at the definitions that src/run.rt of kubepast imports for its clauses, and goes along the `use` lines of the
files of specs/ of this repository's crates. Files are counted whole, with comments and imports; the lists of modules,
`Lib.antt`, aren't counted. A line tells how many files and lines these are, and how many there are in all. With --list
each crate's files stand in front, as docs/MODEL.md has them.
"""
import argparse
import glob
import os
import re

ROOT = os.path.dirname(os.path.dirname(os.path.abspath(__file__)))
BEGIN = os.path.join("crates", "kubepast", "src", "run.rt")
USED = re.compile(r"^(?:ghost )?(?:pub )?use Rattle\.(\w+)\.specs\.([\w.]+)", re.M)


def text_of(path):
    with open(os.path.join(ROOT, path), encoding="utf-8") as file:
        return file.read()


def files_used(path):
    """The files of specs/ that a file imports. What src/ declares is no definition of its own."""
    for crate, name in USED.findall(text_of(path)):
        parts = name.rstrip(".").split(".")
        for end in range(len(parts), 0, -1):
            found = os.path.join("crates", crate, "specs", *parts[:end]) + ".antt"
            if os.path.isfile(os.path.join(ROOT, found)):
                yield found
                break


def stands_on(begin):
    found, left = set(), list(files_used(begin))
    while left:
        path = left.pop()
        if path not in found:
            found.add(path)
            left += files_used(path)
    return sorted(found)


def lines_of(paths):
    return sum(text_of(path).count("\n") for path in paths)


def main():
    words = argparse.ArgumentParser(description=__doc__, formatter_class=argparse.RawDescriptionHelpFormatter)
    words.add_argument("--list", action="store_true", help="each crate's files with their lines")
    words = words.parse_args()
    found = stands_on(BEGIN)
    if words.list:
        for crate in sorted({path.split(os.sep)[1] for path in found}):
            own = [path for path in found if path.split(os.sep)[1] == crate]
            names = ", ".join(f"{os.path.basename(path)[:-5]} {lines_of([path])}" for path in own)
            print(f"{crate} ({lines_of(own)}): {names}")
    every = [os.path.relpath(path, ROOT) for path in glob.glob(os.path.join(ROOT, "crates", "*", "specs", "**", "*.antt"), recursive=True)]
    every = [path for path in every if os.path.basename(path) != "Lib.antt"]
    print(f"{len(found)} of {len(every)} files of definitions, with {lines_of(found):,} of {lines_of(every):,} lines")


if __name__ == "__main__":
    main()
