#!/usr/bin/env python3
"""Finds names that .antt files import and don't use, as `rt tidy` drops them, without proving anything.

unused_imports.py [CRATE..] [--drop]

A line is printed for each such name, and at the end how many there are. `rt tidy` proves a crate again to be sure; this
goes by the text alone, so that all crates are looked at in a second. A name counts as used where it, or each part of an
operator, stands outside imports and comments. With --drop the names, and imports that are left without any, are taken
out of the files: `rt check` then has to prove these crates again. The status is 0 where no such name is left.
"""
import argparse
import os
import re
import sys

ROOT = os.path.dirname(os.path.dirname(os.path.abspath(__file__)))
IMPORT = re.compile(r"use ([\w.\-]+)\.\{(.*)\}")
RENAMED = re.compile(r"use [\w.\-]+ as (\S+)")


def is_used(name, body):
    """Whether a name stands in a text; of an operator, each part between its holes. A `do` block binds by `>>=`."""
    if name == "◌>>=◌" and "←" in body:
        return True
    if "◌" in name:
        return all(part in body for part in name.split("◌"))
    return re.search(rf"(?<![\w\-]){re.escape(name)}(?![\w\-])", body) is not None


def kept(line, body):
    """What is left of an import, None where nothing is, and the names that are dropped."""
    renamed = RENAMED.fullmatch(line)
    if renamed:
        return (line, []) if is_used(renamed[1], body) else (None, [renamed[1]])
    listed = IMPORT.fullmatch(line)
    if not listed:
        return line, []
    names = listed[2].split(", ")
    unused = [name for name in names if not is_used(name.split(" as ")[-1], body)]
    left = [name for name in names if name not in unused]
    return (f"use {listed[1]}.{{{', '.join(left)}}}" if left else None), unused


def look(path, drop):
    """How many names a file imports and doesn't use; each is told."""
    with open(path, encoding="utf-8") as file:
        lines = file.read().split("\n")
    body = "\n".join(line for line in lines if not line.lstrip().startswith(("use ", "--")))
    found = [kept(line, body) for line in lines]
    unused = [name for _, names in found for name in names]
    for name in unused:
        print(f"{os.path.relpath(path, ROOT)}: {name}")
    if drop and unused:
        with open(path, "w", encoding="utf-8") as file:
            file.write("\n".join(line for line, _ in found if line is not None))
    return len(unused)


def main():
    words = argparse.ArgumentParser(description=__doc__, formatter_class=argparse.RawDescriptionHelpFormatter)
    words.add_argument("crates", nargs="*")
    words.add_argument("--drop", action="store_true")
    asked = words.parse_args()
    count = 0
    for crate in asked.crates or sorted(os.listdir(os.path.join(ROOT, "crates"))):
        for part in ("specs", "proofs"):
            for at, folders, names in os.walk(os.path.join(ROOT, "crates", crate, part)):
                folders.sort()
                files = [os.path.join(at, name) for name in sorted(names) if name.endswith(".antt")]
                count += sum(look(file, asked.drop) for file in files)
    print(f"{count} names are imported and not used")
    if count and not asked.drop:
        sys.exit(1)


main()
