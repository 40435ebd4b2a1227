#!/usr/bin/env python3
"""Spoils good inputs, and looks how the program answers.

fuzz.py PROGRAM [--cases N] [--seed S] [--most BYTES] [--reference COMMAND] [--keep FOLDER]

Each case takes a setup and a log of examples/, spoils one of them by a byte, a member or a line, and calls one command on
them. The answer has to be one of the table of statuses, with a text of that status, within a minute and with no signal.
Where the inputs are small (--most, by default 60000 bytes) and COMMAND is an independent program with the same words, its
text and status have to be the same. A seed gives the same cases again. What differs is kept below FOLDER. How far it has
come is told on standard error, every 1,000 cases. The last lines count the cases by command and status.
"""
import argparse
import glob
import json
import os
import random
import re
import shlex
import shutil
import subprocess
import sys
import tempfile
from collections import Counter
from concurrent.futures import ThreadPoolExecutor

HERE = os.path.dirname(os.path.abspath(__file__))
EXAMPLES = os.path.join(os.path.dirname(HERE), "examples")
TEXTS = {
    0: rb"(explained|holds|present|absent|removed|clouded|maybe|unknown|value|no value|since|allow|forbid|either|unjudged"
       rb"|\d+ |$)",
    1: rb"(unexplained|crossed|wrong) |explained ", 2: rb"usage\n$", 3: rb"setup S\d+\n$",
    4: rb"(malformed \d+ M\d+|placement \d+)\n$", 5: rb"read fault\n$", 7: rb"limit \w+\n$", 8: rb"$",
}
ODD = [b"", b"0", b"-1", b"18446744073709551615", b"1e999", b"null", b"[]", b"{}", b'""', b'"\\ud800"', b"\xff", b"\n",
       b"true", b'"*"', b'"/"', b"0.5", b'"00012"']


def good_inputs():
    """The setups and logs of the examples that belong together."""
    pairs = []
    for folder in sorted(glob.glob(os.path.join(EXAMPLES, "*"))):
        for setup in sorted(glob.glob(os.path.join(folder, "setup.json"))):
            logs = [it for it in sorted(glob.glob(os.path.join(folder, "*"))) if re.search(r"explained\.json$|\.log$", it)]
            pairs += [(setup, it) for it in logs]
    return [tuple(open(it, "rb").read() for it in pair) for pair in pairs]


def spoilt_bytes(chance, text):
    """A byte changed, lost, put in or doubled, or the text cut."""
    if not text:
        return b"{"
    at = chance.randrange(len(text))
    kind = chance.randrange(6)
    if kind == 0:
        return text[:at] + bytes([chance.randrange(256)]) + text[at + 1:]
    if kind == 1:
        return text[:at] + text[at + 1:]
    if kind == 2:
        return text[:at] + chance.choice(ODD) + text[at:]
    if kind == 3:
        return text[:at]
    if kind == 4:
        return text[:at] + text[at:at + 40] * 2 + text[at + 40:]
    digits = [it.start() for it in re.finditer(rb"[0-9]", text)]
    at = chance.choice(digits) if digits else at
    return text[:at] + b"%d" % chance.randrange(10) + text[at + 1:]


def members_of(value, path=()):
    """The places of all members and items below a value."""
    found = []
    for name, below in value.items() if isinstance(value, dict) else enumerate(value) if isinstance(value, list) else ():
        found.append((value, name))
        found += members_of(below, (*path, name))
    return found


def spoilt_member(chance, text):
    """A member or an item of a JSON text lost, replaced, renamed, or put in the place of another."""
    try:
        value = json.loads(text)
    except ValueError:
        return spoilt_bytes(chance, text)
    places = members_of(value)
    if not places:
        return spoilt_bytes(chance, text)
    (holder, name), (other, theirs) = chance.choice(places), chance.choice(places)
    kind = chance.randrange(5)
    if kind == 0:
        del holder[name]
    elif kind == 1:
        holder[name] = chance.choice([None, True, "", [], {}, 0, -1, 2 ** 64 - 1, 2 ** 64, "x" * 300, "11", 1.5])
    elif kind == 2 and isinstance(holder, dict):
        holder[chance.choice(["kind", "metadata", "name", "uid", "resourceVersion", "~", "a/b", ""])] = holder.pop(name)
    elif kind == 3:
        holder[name] = json.loads(json.dumps(other[theirs]))
    else:
        held = holder[name]
        for _ in range(chance.choice([1, 3, 130])):
            held = {"a": held} if chance.randrange(2) else [held]
        holder[name] = held
    return json.dumps(value, separators=(",", ":"), ensure_ascii=chance.randrange(2) == 0).encode("utf-8", "surrogatepass")


def spoilt_lines(chance, text):
    """Lines lost, doubled, swapped or cut, or one spoilt inside."""
    lines = text.split(b"\n")
    at, other = chance.randrange(len(lines)), chance.randrange(len(lines))
    kind = chance.randrange(6)
    if kind == 0:
        del lines[at]
    elif kind == 1:
        lines.insert(other, lines[at])
    elif kind == 2:
        lines[at], lines[other] = lines[other], lines[at]
    elif kind == 3:
        lines[at] = spoilt_bytes(chance, lines[at])
    else:
        lines[at] = spoilt_member(chance, lines[at])
    return b"\n".join(lines)


def words_of(chance, setup, log):
    """The words of a command on the two files, and what they are called in the counts."""
    revisions = re.findall(rb'"resourceVersion":\s*"(\d{1,18})"', setup + log) or [b"11"]
    place = chance.choice(revisions).decode()
    names = re.findall(rb'"name":\s*"([a-z0-9.-]{1,40})"', setup + log) or [b"a"]
    spaces = re.findall(rb'"namespace":\s*"([a-z0-9.-]{1,40})"', setup + log) or [b"n"]
    key = f"/configmaps/{chance.choice(spaces).decode()}/{chance.choice(names).decode()}"
    uri = f"/api/v1/namespaces/{chance.choice(spaces).decode()}/configmaps/{chance.choice(names).decode()}"
    given = ["setup", "log"]
    return chance.choice([
        ["judge", *given], ["judge", *given], ["judge", "--strict", *given], ["verify", *given, "placement"],
        ["show", *given, key, place], ["versions", *given, key], ["state", *given, place],
        ["blame", *given, key, chance.choice(["", "/data", "/data/k", "/metadata/name", "/a~0b"]), place],
        ["can", *given, place, "anna", chance.choice(["-", "shop-dev", "system:masters"]), "get", uri],
    ])


def called(command, words, folder):
    try:
        ran = subprocess.run([*command, *words], cwd=folder, stdin=subprocess.DEVNULL, stdout=subprocess.PIPE,
                             stderr=subprocess.PIPE, timeout=60)
    except subprocess.TimeoutExpired:
        return "no answer within a minute", b""
    return ran.returncode, ran.stdout


def case(asked, number, inputs):
    """Tries one case. Returns its command, its status, and what is wrong with its answer, if anything is."""
    chance = random.Random(f"{asked.seed}-{number}")
    setup, log = chance.choice(inputs)
    placement = b""
    if chance.randrange(3) == 0:
        setup = chance.choice([spoilt_bytes, spoilt_member])(chance, setup)
    elif len(log) > asked.most and chance.randrange(4):
        lines = log.split(b"\n")
        begin = chance.randrange(len(lines))
        log = spoilt_lines(chance, b"\n".join(lines[begin:begin + 60]))
    else:
        log = chance.choice([spoilt_bytes, spoilt_lines, spoilt_lines])(chance, log)
    words = words_of(chance, setup, log)
    with tempfile.TemporaryDirectory() as folder:
        for name, text in (("setup", setup), ("log", log)):
            with open(os.path.join(folder, name), "wb") as file:
                file.write(text)
        if words[0] == "verify":
            placement = called(asked.program, ["judge", "setup", "log"], folder)[1]
            if chance.randrange(2):
                placement = chance.choice([spoilt_bytes, spoilt_lines])(chance, placement)
            with open(os.path.join(folder, "placement"), "wb") as file:
                file.write(placement)
        status, text = called(asked.program, words, folder)
        wrong = None
        if status not in TEXTS or not re.match(TEXTS[status], text):
            wrong = f"status {status} with {text[:80]!r}"
        elif asked.reference and len(setup) + len(log) <= asked.most:
            theirs = called(asked.reference, words, folder)
            if theirs != (status, text):
                wrong = f"status {status} with {text[:80]!r}, but the reference {theirs[0]} with {theirs[1][:80]!r}"
        if wrong and asked.keep:
            shutil.copytree(folder, os.path.join(asked.keep, str(number)), dirs_exist_ok=True)
            with open(os.path.join(asked.keep, str(number), "words"), "w") as file:
                file.write(" ".join(map(shlex.quote, words)) + "\n" + wrong + "\n")
    return " ".join(words[:2] if words[1] == "--strict" else words[:1]), status, wrong, number


def main():
    words = argparse.ArgumentParser(description=__doc__, formatter_class=argparse.RawDescriptionHelpFormatter)
    words.add_argument("program")
    words.add_argument("--cases", type=int, default=1000)
    words.add_argument("--seed", type=int, default=1)
    words.add_argument("--most", type=int, default=60000)
    words.add_argument("--reference", default="")
    words.add_argument("--keep", default="")
    asked = words.parse_args()
    asked.program = [os.path.abspath(asked.program)]
    asked.reference = [os.path.abspath(it) if os.path.isfile(it) else it for it in shlex.split(asked.reference)]
    inputs, counts, bad = good_inputs(), Counter(), 0
    with ThreadPoolExecutor(os.cpu_count()) as pool:
        for command, status, wrong, number in pool.map(lambda it: case(asked, it, inputs), range(asked.cases)):
            counts[command, status] += 1
            if wrong:
                bad += 1
                print(f"case {number}: {command}: {wrong}", flush=True)
            if (number + 1) % 1000 == 0:
                print(f"{number + 1} cases, {bad} not as wanted", file=sys.stderr, flush=True)
    for (command, status), count in sorted(counts.items(), key=str):
        print(f"{command} {status}: {count}")
    print(f"{asked.cases - bad} as wanted, {bad} not")
    sys.exit(1 if bad else 0)


main()
