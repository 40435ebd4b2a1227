#!/usr/bin/env python3
"""Writes the tables of codes in docs/FORMATS.md from the texts of crates/code_guide.

A table stands between the lines `<!-- codes: FAMILY -->` and `<!-- end of codes -->`, and what stands there is written
anew. FAMILY is M, S, U or V, or the first word of a code of two words, as status and limit. With --check nothing is
written: the status is 1 where a table differs from the texts. It is 2 where a text isn't of its form, a mark names no
family, or a family hasn't exactly one table.
"""

import pathlib
import re
import sys

TOP = pathlib.Path(__file__).resolve().parent.parent
DOCUMENT = TOP / "docs" / "FORMATS.md"
SOURCES = TOP / "crates" / "code_guide" / "src"
PARTS = ("How it comes about: ", "Look at: ", "What to do: ")
HEAD = "| Code | Meaning | How it comes about | Where to look | What to do |\n|---|---|---|---|---|\n"
CONSTANT = re.compile(r'^/// `([^`]+)`\npub const [A-Z0-9_]+: &str =\s*"((?:[^"\\]|\\.)*)";', re.MULTILINE)
TABLE = re.compile(r"(<!-- codes: (\S+) -->\n)(.*?)(<!-- end of codes -->)", re.DOTALL)


def fail(message):
    print(f"make_codes: {message}", file=sys.stderr)
    sys.exit(2)


def family_of(name):
    """M of M1, and status of `status 3`."""
    words = name.split(" ")
    return words[0] if len(words) == 2 else name.rstrip("0123456789")


def cells_of(name, text):
    """What the text says in its four paragraphs."""
    paragraphs = [" ".join(paragraph.split()) for paragraph in text.split("\n\n")]
    labels = (f"{name}: ",) + PARTS
    if len(paragraphs) != len(labels):
        fail(f"the text of {name} hasn't {len(labels)} paragraphs")
    for label, paragraph in zip(labels, paragraphs):
        if not paragraph.startswith(label):
            fail(f"a paragraph of {name} doesn't begin with `{label}`")
    return [paragraph[len(label):] for label, paragraph in zip(labels, paragraphs)]


def rows_of(sources):
    """The rows of each family, in the order of the sources."""
    rows = {}
    for source in sources:
        for name, escaped in CONSTANT.findall(source.read_text(encoding="utf-8")):
            text = escaped.replace('\\"', '"').replace("\\\\", "\\")
            cells = [f"`{name}`" if " " in name else name] + cells_of(name, text)
            row = "| " + " | ".join(cell.replace("|", "\\|") for cell in cells) + " |\n"
            rows.setdefault(family_of(name), []).append(row)
    return rows


def main():
    rows = rows_of(sorted(SOURCES.glob("*.rt")))
    document = DOCUMENT.read_text(encoding="utf-8")
    tables = [match.group(2) for match in TABLE.finditer(document)]
    for family in tables:
        if family not in rows:
            fail(f"there is no code of the family {family}")
    for family in rows:
        if tables.count(family) != 1:
            fail(f"{DOCUMENT.name} has {tables.count(family)} tables of the family {family}")

    def written(match):
        return match.group(1) + HEAD + "".join(rows[match.group(2)]) + match.group(4)

    made = TABLE.sub(written, document)
    if sys.argv[1:] == ["--check"]:
        if made != document:
            print(f"make_codes: {DOCUMENT.name} differs from the texts", file=sys.stderr)
            return 1
        return 0
    if sys.argv[1:]:
        fail("the one word that is known is --check")
    DOCUMENT.write_text(made, encoding="utf-8")
    return 0


if __name__ == "__main__":
    sys.exit(main())
