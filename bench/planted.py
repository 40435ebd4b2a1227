#!/usr/bin/env python3
"""Tries wrong bodies that were planted by hand, and tells which of them the contracts let through.

planted.py [CRATE..] [--jobs N] [--together]

docs/planted/CRATE.edits lists wrong bodies of a crate: after its first line, for each a line `== NAME` and the lines of
a must-fail edit (`file:`, and pairs of `old:` and `new:`). For each crate (by default each that has a list, lowest
first) the list takes the place of the must-fail edits of all crates, in a copy of the files that git tracks, and
`rt must-fail CRATE` has the prover check the crate with each edit. A line is printed for each, once its crate is done:

  refused  the prover refuses it; what it says first follows
  proved   it is still proved: the contracts let it through
  bad      nothing is known of it: it can't be applied, read or checked, or the crate isn't proved as it stands

and at the end how many there are of each. Some are refused for less than a broken contract, which the line then says:
where a proof names what the edit takes away, or where the prover comes to a limit of its own.

With --together the edits of different functions' bodies share a check of the crate, since a body is held to its own
contract and to those of what it calls, whatever their bodies are. What the prover then says of a function's own lines
is said of its edit; each edit of which it says nothing there, or that changes more than one body, has a check of its
own, and only what that doesn't refuse is tried by `rt must-fail`.

--jobs N tries N crates at a time (by default 1), each in a copy of its own. One rt uses all processors, unless RT_JOBS
says how many. What lies below a crate is taken from other checkouts on the machine that have proved it, and else proved
once in each copy. The status is 0 where all are refused.
"""
import argparse
import os
import queue
import re
import shutil
import subprocess
import sys
import tempfile
import threading

ROOT = os.path.dirname(os.path.dirname(os.path.abspath(__file__)))
LISTS = os.path.join(ROOT, "docs", "planted")
# A change of a comment, which a proved crate bears: without it, a crate that isn't proved would seem to refuse all.
CONTROL = "as_it_stands"
CONTROL_LINES = ["old: #![tactic(auto)]", "new: #![tactic(auto)] // as it stands"]
# So many edits share a check at most: the prover searches for a proof of each in vain.
TOGETHER = 12
# What the prover says: a file, a row and words.
SAID = re.compile(r"^(?:note: )?(?:\./)?((?:src|proofs|specs)/\S+?):(\d+):\d+: (.*)", re.M)
UNREAD = re.compile(r"^(?:\./)?(?:src|specs)/\S+?:\d+:\d+: error: (?!`)", re.M)
# What a proof file says that names what an edit takes away, which tells little of the contract.
THIN = re.compile(r"has no field|is not in scope|has no `|was not admitted")
KINDS = {"refused, as it must be": "refused", "NOT REFUSED": "proved", "BAD EDIT": "bad", "NOT TRIED": "bad"}


def listed(crate):
    """The lines of each edit of a crate's list, by its name."""
    # A program's root is main.rt.
    root = next(it for it in ("src/lib.rt", "src/main.rt") if os.path.isfile(os.path.join(ROOT, "crates", crate, it)))
    edits, lines = {CONTROL: ["file: " + root] + CONTROL_LINES}, None
    with open(os.path.join(LISTS, crate + ".edits"), encoding="utf-8") as file:
        for row, line in enumerate(file.read().split("\n"), 1):
            if line.startswith("== "):
                name = line[3:].strip()
                if not re.fullmatch(r"\w+", name, re.ASCII) or name in edits:
                    sys.exit(f"docs/planted/{crate}.edits:{row}: {name} is no name, or stands there twice")
                edits[name] = lines = []
            elif lines is not None:
                lines.append(line)
            elif line and not line.startswith("#"):
                sys.exit(f"docs/planted/{crate}.edits:{row}: a line before the first name")
    return edits


def copy_to(room):
    """Copies what git tracks, the must-fail edits aside."""
    names = subprocess.run(["git", "ls-files", "-z"], cwd=ROOT, stdout=subprocess.PIPE, check=True).stdout
    for name in names.decode().split("\0"):
        if os.path.isfile(os.path.join(ROOT, name)) and "/must-fail/" not in name:
            os.makedirs(os.path.dirname(os.path.join(room, name)), exist_ok=True)
            shutil.copy2(os.path.join(ROOT, name), os.path.join(room, name))


def told_by(output, crate):
    """What rt says of each edit: its kind, and the words behind it. Lines without `rt: ` belong to the one before."""
    told, name = {}, None
    for line in output.split("\n"):
        found = re.match(rf"rt: must-fail {re.escape(crate)}/(\w+)\.edit: (.*)", line)
        if found:
            name, words = found.groups()
            start = next((it for it in KINDS if words.startswith(it)), "")
            told[name] = [KINDS.get(start, "bad"), words[len(start):].lstrip(": ")]
        elif line.startswith("rt: "):
            name = None
        elif name and line.strip():
            told[name][1] += " " + line.strip()
    return told


def text_of(path):
    with open(path, encoding="utf-8") as file:
        return file.read()


def write(path, text):
    with open(path, "w", encoding="utf-8") as file:
        file.write(text)


def bodies(text):
    """The functions of a file that `rt fmt` wrote: for each its name, its first row, and those of its `{` and `}`."""
    found, rows = [], text.split("\n")
    for at, row in enumerate(rows):
        head = re.match(r"( *)(?:pub(?:\([a-z]+\))? )?(?:const )?fn (\w+)", row)
        if not head:
            continue
        opens, closes = re.compile(head[1] + r"(?:\S.*)?\{$"), head[1] + "}"
        begin = next((it for it in range(at, len(rows)) if opens.match(rows[it])), len(rows))
        end = next((it for it in range(begin + 1, len(rows)) if rows[it] == closes), None)
        if end is not None:
            found.append((head[2], at + 1, begin + 1, end + 1))
    return found


def in_one_body(folder, lines):
    """The body (a file, and a number of it) that holds all that an edit changes, and its pairs of old and new texts."""
    path, pairs, places = None, [], set()
    for line in lines:
        if line.startswith("file: "):
            path = line[6:].strip()
        elif line.startswith("old: "):
            old = line[5:]
        elif line.startswith("new:"):
            text = text_of(os.path.join(folder, path)) if path.startswith("src/") else ""
            row = text[:text.find(old)].count("\n") + 1
            found = [at for at, (_, _, begin, end) in enumerate(bodies(text)) if begin < row < end]
            places.add((path, found[0]) if text.count(old) == 1 and found else None)
            pairs.append((old, line[4:].removeprefix(" ")))
    return (places.pop(), pairs) if len(places) == 1 and None not in places else None


def groups(folder, edits):
    """Edits of different bodies, some at a time: for each its name, its body and its pairs."""
    left = {name: it for name, lines in edits.items() if name != CONTROL and (it := in_one_body(folder, lines))}
    while left:
        group, places = [], set()
        for name, (place, pairs) in left.items():
            if place not in places and len(group) < TOGETHER:
                places.add(place)
                group.append((name, place, pairs))
        for name, _, _ in group:
            del left[name]
        yield group


def said_of(folder, texts):
    """What the prover says of a crate with these texts in place of its own, where it refuses it: files, rows, words."""
    own = {path: text_of(path) for path in texts}
    try:
        for path, text in texts.items():
            write(path, text)
        ran = subprocess.run(["rt", "check"], cwd=folder, stdin=subprocess.DEVNULL, stdout=subprocess.PIPE,
                             stderr=subprocess.STDOUT, errors="replace")
    finally:
        for path, text in own.items():
            write(path, text)
    # An error of src or specs that names no obligation says that the text can't be read.
    if not re.search(r"^logic=not-proved", ran.stdout, re.M) or UNREAD.search(ran.stdout):
        return []
    return [it for it in SAID.findall(ran.stdout) if not (it[0].startswith("proofs/") and THIN.search(it[2]))]


def is_said_of(said, path, functions, number):
    """Whether what the prover says is of a function: in its rows, or in a proof of an obligation of its own."""
    name, first, _, last = functions[number]
    place, row, _ = said
    own = "proofs/" + ("" if path in ("src/lib.rt", "src/main.rt") else path[4:-3] + "/")
    is_alone = sum(it[0] == name for it in functions) == 1
    return (place == path and first <= int(row) <= last
            or is_alone and place.startswith(own) and os.path.basename(os.path.dirname(place)) == name)


def changed(folder, lines):
    """The texts of the files that an edit changes, or none where it can't be applied."""
    path, old, texts = None, None, {}
    for line in lines:
        if line.startswith("file: "):
            path = os.path.join(folder, line[6:].strip())
        elif line.startswith("old: "):
            old = line[5:]
        elif line.startswith("new:"):
            text = texts.get(path) or text_of(path)
            if text.count(old) != 1:
                return {}
            texts[path] = text.replace(old, line[4:].removeprefix(" "))
    return texts


def refused_together(room, crate, edits):
    """The edits that the prover refuses where they share a check, with what it says first of the function."""
    folder, told = os.path.join(room, "crates", crate), {}
    for group in groups(folder, edits):
        texts = {}
        for _, (file, _), pairs in group:
            path = os.path.join(folder, file)
            for old, new in pairs:
                texts[path] = texts.get(path, text_of(path)).replace(old, new)
        said = said_of(folder, texts)
        for name, (file, number), _ in group:
            functions = bodies(texts[os.path.join(folder, file)])
            words = next((it[2] for it in said if is_said_of(it, file, functions, number)), None)
            if words:
                told[name] = "refused", words
    return told


def refused_alone(room, crate, edits):
    """The edits that the prover refuses in a check of their own, with what it says first."""
    folder, told = os.path.join(room, "crates", crate), {}
    for name, lines in edits.items():
        said = said_of(folder, changed(folder, lines)) if name != CONTROL else []
        if said:
            told[name] = "refused", said[0][2]
    return told


def tried(room, crate, edits):
    """The kind of each edit of the list, and the words to it."""
    folder = os.path.join(room, "crates", crate, "must-fail")
    os.makedirs(folder)
    for name, lines in edits.items():
        with open(os.path.join(folder, name + ".edit"), "w", encoding="utf-8") as file:
            file.write("\n".join(lines) + "\n")
    ran = subprocess.run(["rt", "must-fail", crate], cwd=room, stdin=subprocess.DEVNULL, stdout=subprocess.PIPE,
                         stderr=subprocess.STDOUT, errors="replace")
    shutil.rmtree(folder)
    told = told_by(ran.stdout, crate)
    last = " ".join(ran.stdout.strip().split("\n")[-3:])
    kind, words = told.pop(CONTROL, ("bad", "rt said: " + last))
    if kind != "proved":
        return {name: ("bad", f"the crate isn't proved as it stands: {words}") for name in edits if name != CONTROL}
    return {name: tuple(told.get(name, ("bad", "rt said nothing of it: " + last))) for name in edits if name != CONTROL}


def work(crates, lists, counts, printing, together):
    """Tries the crates that are left, one after the other, in one copy."""
    with tempfile.TemporaryDirectory(prefix="planted-") as room:
        copy_to(room)
        while True:
            try:
                crate = crates.get_nowait()
            except queue.Empty:
                return
            results, left = {}, lists[crate]
            for refusing in (refused_together, refused_alone) if together else ():
                results |= refusing(room, crate, left)
                left = {name: it for name, it in left.items() if name not in results}
            results |= tried(room, crate, left) if len(left) > 1 else {}
            with printing:
                for name, (kind, words) in results.items():
                    counts[kind] += 1
                    print(f"{kind:7} {crate}/{name}  {words[:160]}".rstrip(), flush=True)


def main():
    words = argparse.ArgumentParser(description=__doc__, formatter_class=argparse.RawDescriptionHelpFormatter)
    words.add_argument("crates", nargs="*")
    words.add_argument("--jobs", type=int, default=1)
    words.add_argument("--together", action="store_true")
    asked = words.parse_args()
    with open(os.path.join(ROOT, "crates.txt"), encoding="utf-8") as file:
        order = [line.split(":")[0].split()[0] for line in file if line.split("#")[0].strip()]
    names = [it for it in order if os.path.isfile(os.path.join(LISTS, it + ".edits"))]
    lacking = [it for it in asked.crates if it not in names]
    if lacking:
        sys.exit(f"there is no docs/planted/{lacking[0]}.edits of a crate of this name")
    lists = {it: listed(it) for it in names if it in asked.crates or not asked.crates}
    crates, counts, printing = queue.Queue(), {"refused": 0, "proved": 0, "bad": 0}, threading.Lock()
    for crate in lists:
        crates.put(crate)
    threads = [threading.Thread(target=work, args=(crates, lists, counts, printing, asked.together))
               for _ in range(max(1, min(asked.jobs, len(lists))))]
    for thread in threads:
        thread.start()
    for thread in threads:
        thread.join()
    print(", ".join(f"{count} {kind}" for kind, count in counts.items()))
    if counts["proved"] or counts["bad"] or sum(counts.values()) < sum(len(it) - 1 for it in lists.values()):
        sys.exit(1)


main()
