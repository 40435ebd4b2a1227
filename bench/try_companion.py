#!/usr/bin/env python3
"""Tries the companion on the real log of examples/.

try_companion.py JUDGE COMPANION

- `setup` over the lists and the discovery document of examples/real/lists makes a setup under which `judge` gives the
  stored verdict.
- `sift` over the log with twelve lines put in, one for each rule from M1 to M12, gives back the log byte for byte, and
  `sift --left` the twelve lines with their codes.
- `judge` refuses the log with these lines, and gives the stored verdict of what `sift` printed.
- `setup` refuses a list, and a policy, of one byte more than 2^28 with `limit file`, and takes 2^28 bytes for no JSON.

Both programs are named as they were built, crates/NAME/out/NAME. The last line says how many of the trials held.
"""
import json
import os
import subprocess
import sys
import tempfile

REAL = os.path.join(os.path.dirname(os.path.dirname(os.path.abspath(__file__))), "examples", "real")
LISTS = os.path.join(REAL, "lists")
MOST_FILE = 2**28


def odd_lines(line):
    """Twelve lines, each of which breaks one rule first; the last needs the line that it was made of before it."""
    def changed(**members):
        event = {**json.loads(line), "auditID": "odd", **members}
        return json.dumps({name: value for name, value in event.items() if value != "out"}, separators=(",", ":"))
    return [
        ("M1", line[: len(line) // 2]), ("M2", changed(kind="Pod")), ("M3", changed(level="None")),
        ("M4", changed(stage="Done")), ("M5", changed(stageTimestamp="2001-01-01T00:00:00.000000Z")),
        ("M6", changed(annotations={"weight": 0.5})), ("M7", changed(auditID="")), ("M8", changed(requestURI="out")),
        ("M9", changed(verb="")), ("M10", changed(user="out")), ("M11", changed(responseStatus={"code": "200"})),
        ("M12", changed(auditID=json.loads(line)["auditID"], verb="watch")),
    ]


def spoilt(log):
    """The log with the odd lines put in, and what is to be said of them."""
    lines, told = log.split("\n"), []
    odd = odd_lines(lines[0])
    for number, (code, text) in enumerate(odd):
        at = 7 + 50 * number
        lines.insert(at, text)
        told.append(f"{at + 1} {code}\n")
    return "\n".join(lines), "".join(told)


def sparse(folder, name, size):
    """A file of so many zeros, which takes no room on most disks."""
    path = os.path.join(folder, name)
    with open(path, "wb") as file:
        file.truncate(size)
    return path


def main():
    judge, companion = (os.path.abspath(it) for it in sys.argv[1:3])

    def called(*words):
        ran = subprocess.run(words, stdout=subprocess.PIPE, text=True, encoding="utf-8", check=False)
        return ran.returncode, ran.stdout
    with open(os.path.join(REAL, "audit.log"), encoding="utf-8") as file:
        log = file.read()
    with open(os.path.join(REAL, "verdict.txt"), encoding="utf-8") as file:
        verdict = file.read()
    with open(os.path.join(REAL, "setup.json"), encoding="utf-8") as file:
        moment = json.load(file)["start"]["time"]
    count = sum(1 for line in log.split("\n") if line.strip())
    text, told = spoilt(log)
    held = []
    with tempfile.TemporaryDirectory() as folder:
        setup, odd, sifted = (os.path.join(folder, name) for name in ("setup.json", "odd.log", "sifted.log"))
        lists = [os.path.join(LISTS, name) for name in ("policy.json", "core.json", "configmaps.json")]
        status, made = called(companion, "setup", moment, *lists)
        with open(setup, "w", encoding="utf-8") as file:
            file.write(made)
        held.append(("setup", status == 0 and called(judge, "judge", setup, os.path.join(REAL, "audit.log")) == (0, verdict)))
        with open(odd, "w", encoding="utf-8") as file:
            file.write(text)
        held.append(("refused", called(judge, "judge", setup, odd) == (4, "malformed 8 M1\n")))
        status, kept = called(companion, "sift", odd)
        held.append(("sift", (status, kept) == (0, log)))
        held.append(("left", called(companion, "sift", "--left", odd) == (0, told + f"kept {count} left 12\n")))
        with open(sifted, "w", encoding="utf-8") as file:
            file.write(kept)
        held.append(("judged", called(judge, "judge", setup, sifted) == (0, verdict)))
        long, most = (sparse(folder, name, size) for name, size in (("long.json", MOST_FILE + 1), ("most.json", MOST_FILE)))
        limit, no_json = (7, "limit file\n"), (3, f"file {most} json\n")
        held.append(("long list", called(companion, "setup", moment, *lists, long) == limit))
        held.append(("long policy", called(companion, "setup", moment, long, *lists[1:]) == limit))
        held.append(("longest file", called(companion, "setup", moment, *lists, most) == no_json))
    for name, holds in held:
        print(name, "holds" if holds else "DOESN'T HOLD")
    print(f"{sum(holds for _, holds in held)} of {len(held)}")
    sys.exit(0 if all(holds for _, holds in held) else 1)


main()
