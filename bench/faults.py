#!/usr/bin/env python3
"""Runs each command over small inputs with each allocation refused once, each read and write failing once, and each moving
one byte alone once.

    python3 bench/faults.py crates/kubepast/out/kubepast [crates/companion/out/companion] [--every N] [--jobs N]

A run has to end with the text and status of the run without faults, or with 8 (no memory), 5 (a read failed) or 6 (a write
failed); with 8 and 5 nothing was written, with 6 a beginning of the text. A word that isn't UTF-8 has to end with `usage` and
2. A signal or a hang is a failure. It needs `cc`.
"""

import argparse
import collections
import concurrent.futures
import os
import struct
import subprocess
import sys
import tempfile

HERE = os.path.dirname(os.path.abspath(__file__))
EXAMPLES = os.path.join(os.path.dirname(HERE), "examples")
KINDS = {"alloc": 0, "read": 1, "write": 2, "short-read": 1, "short-write": 2}
SECONDS = 20
NOT_TEXT = b"\xff"


def shown(word):
    if isinstance(word, bytes):
        return repr(word)
    return os.path.relpath(word, EXAMPLES) if word.startswith(EXAMPLES) else word


class Bench:
    def __init__(self, room):
        self.room = room
        self.shim = os.path.join(room, "faults.so")
        subprocess.run(["cc", "-O2", "-shared", "-fPIC", "-o", self.shim, os.path.join(HERE, "faults.c")], check=True)

    def run(self, words, given=None, kind="", at=0):
        """Returns the status, what was written, and how many allocations, reads and writes there were."""
        with tempfile.NamedTemporaryFile(dir=self.room) as counts:
            counts.write(bytes(24))
            counts.flush()
            faults = {"LD_PRELOAD": self.shim, "FAULT_KIND": kind, "FAULT_AT": str(at), "FAULT_COUNTS": counts.name}
            source = open(given, "rb") if given else subprocess.DEVNULL
            try:
                ran = subprocess.run(words, stdin=source, capture_output=True, env={**os.environ, **faults}, timeout=SECONDS)
                status, text = ran.returncode, ran.stdout
            except subprocess.TimeoutExpired:
                status, text = "hangs", b""
            finally:
                if given:
                    source.close()
            counts.seek(0)
            return status, text, struct.unpack("3q", counts.read(24))


def is_right(kind, whole, status, text):
    """Whether a run with one fault ends as it may."""
    if (status, text) == whole:
        return True
    if kind == "alloc":
        return status == 8 and text == b""
    if kind == "read":
        return status == 5 and text in (b"", b"read fault\n")
    return kind == "write" and status == 6 and whole[1].startswith(text)


def judge_cases(program, room):
    """The judge's commands, as words and what standard input is."""
    for name, logs in (("first", ("explained", "unexplained")), ("decisions", None), ("removals", None), ("gaps", None)):
        folder = os.path.join(EXAMPLES, name)
        setup = os.path.join(folder, "setup.json")
        for log in sorted(os.listdir(folder)) if logs is None else [f"{log}.json" for log in logs]:
            if not log.endswith(".json") or log == "setup.json":
                continue
            log = os.path.join(folder, log)
            yield [program, "judge", setup, log], None
            yield [program, "judge", setup, "-"], log
            yield [program, "judge", "--strict", setup, log], None
            told = subprocess.run([program, "judge", setup, log], capture_output=True)
            if told.returncode == 0:
                placement = os.path.join(room, f"{name}-{os.path.basename(log)}.placement")
                with open(placement, "wb") as out:
                    out.write(told.stdout)
                yield [program, "verify", setup, log, placement], None
    yield [program, "make", "1", "5"], None


def question_cases(program):
    folder = os.path.join(EXAMPLES, "decisions")
    read = [os.path.join(folder, "setup.json"), os.path.join(folder, "explained.json")]
    key, place = "/configmaps/shop/prices", "48216"
    user = ["anna@shop.example", "shop-dev,system:authenticated"]
    yield [program, "show", *read, key, place], None
    yield [program, "versions", *read, key], None
    yield [program, "state", *read, place], None
    yield [program, "blame", *read, key, "/data", place], None
    yield [program, "can", *read, place, *user, "get", "/api/v1/namespaces/shop/configmaps/prices"], None
    yield [program], None
    yield [program, "judge", read[0], NOT_TEXT], None


def companion_cases(program):
    folder = os.path.join(EXAMPLES, "first")
    setup, log = os.path.join(folder, "setup.json"), os.path.join(folder, "explained.json")
    broken = os.path.join(folder, "unexplained.json")
    yield [program, "explain", "U10"], None
    yield [program, "explain", NOT_TEXT], None
    yield [program, "sift", log], None
    yield [program, "sift", "--left", "-"], log
    yield [program, "picture", setup, log], None
    yield [program, "picture", setup, broken], None
    lists = os.path.join(EXAMPLES, "real", "lists")
    names = sorted(os.listdir(lists))
    policy = [name for name in names if name.startswith("policy")]
    files = [os.path.join(lists, name) for name in [*policy, *(name for name in names if name not in policy)]]
    yield [program, "setup", "2026-01-01T00:00:00Z", *files], None


def tried(bench, words, given, kind, at, whole):
    status, text, _ = bench.run(words, given, kind, at)
    return status, text, is_right(kind, whole, status, text)


def try_case(bench, pool, words, given, every):
    """Tries one case with each fault, prints a line for it, and returns the counts by kind and status, and the failures."""
    status, text, counts = bench.run(words, given)
    whole, found, wrong = (status, text), collections.Counter(), []
    if NOT_TEXT in words and whole != (2, b"usage\n"):
        wrong.append(("words", 0, status, text[:60]))
    for kind, which in KINDS.items():
        numbers = range(1, counts[which] + 1, every if kind == "alloc" else 1)
        runs = {at: pool.submit(tried, bench, words, given, kind, at, whole) for at in numbers}
        for at, run in runs.items():
            ended, told, right = run.result()
            found[kind, ended] += 1
            if not right:
                wrong.append((kind, at, ended, told[:60]))
    said = " ".join(shown(word) for word in words[1:])
    print(f"{os.path.basename(words[0])} {said}: status {status}, allocations {counts[0]}, reads {counts[1]}, writes {counts[2]}, wrong {len(wrong)}", flush=True)
    for kind, at, ended, told in wrong[:5]:
        print(f"  {kind} {at}: {ended} {told!r}")
    return found, len(wrong)


def main():
    parser = argparse.ArgumentParser(description=__doc__, formatter_class=argparse.RawDescriptionHelpFormatter)
    parser.add_argument("program")
    parser.add_argument("companion", nargs="?")
    parser.add_argument("--every", type=int, default=1, help="refuse each Nth allocation alone")
    parser.add_argument("--jobs", type=int, default=os.cpu_count())
    said = parser.parse_args()
    all_found, all_wrong = collections.Counter(), 0
    with tempfile.TemporaryDirectory() as room, concurrent.futures.ThreadPoolExecutor(said.jobs) as pool:
        bench = Bench(room)
        program = os.path.abspath(said.program)
        cases = [*judge_cases(program, room), *question_cases(program)]
        if said.companion:
            cases += companion_cases(os.path.abspath(said.companion))
        for words, given in cases:
            found, wrong = try_case(bench, pool, words, given, said.every)
            all_found.update(found)
            all_wrong += wrong
    for (kind, status), count in sorted(all_found.items(), key=str):
        print(f"{kind}: {count} ended with {status}")
    print(f"{sum(all_found.values())} runs, {all_wrong} wrong")
    sys.exit(1 if all_wrong else 0)


if __name__ == "__main__":
    main()
