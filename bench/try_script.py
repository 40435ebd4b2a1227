#!/usr/bin/env python3
"""Tries the script `kubepast` with programs and a kit that stand in for the real ones.

try_script.py

A folder gets the script and a small map of crates. In place of each program stands a script that tells its words and
its input, in place of `rt` one that builds that. So what is tried is the script alone:

- words that are no command, and an output that can't be written;
- words, input, text and status of a program, untouched;
- building: at the first call, after a change of a source, after a build that didn't come to its end; a build that
  fails, and sources that change meanwhile;
- on a terminal: how much of a large log was read, and what ends a program ends the script.

Nothing is proved or built, and the repository stays as it is. The last line says how many of the trials held.
"""
import os
import pty
import re
import shutil
import signal
import subprocess
import sys
import tempfile
import time

SCRIPT = os.path.join(os.path.dirname(os.path.dirname(os.path.abspath(__file__))), "kubepast")
CRATES = "# a map\nbase:\nkubepast tests_may=Threads: base\ncompanion: base\nother: base\n"

# Tells its name, its words, one in brackets each, and its input; a first word of the log says how it ends.
PROGRAM = """#!/bin/sh
name=$(basename "$0")
printf '%s' "$name"
for word in "$@"; do printf ' [%s]' "$word"; done
echo
case ${STAND_IN-} in
    input) cat ;;
    slow)
        exec 3<"$3"
        dd bs=1000000 count=15 <&3 >/dev/null 2>&1
        sleep 1.5
        cat <&3 >/dev/null
        exec 3<&-
        sleep 1
        echo done
        ;;
    status*) exit "${STAND_IN#status}" ;;
    kill*) kill -s "${STAND_IN#kill}" $$ ;;
esac
"""

# Writes down what it is called with, and builds the program where it is told to run it.
KIT = """#!/bin/sh
echo "$(basename "$PWD"): $*" >>"$KIT_CALLS"
[ "${KIT_FAILS-}" = "$1" ] && { echo 'error: it fails'; exit 3; }
case $1 in
    all) printf '== base\\nproved\\n== %s\\nproved\\n== summary\\n' "$(basename "$PWD")" ;;
    run)
        [ -z "${KIT_TOUCHES-}" ] || { sleep 0.02; touch "$KIT_TOUCHES"; }
        mkdir -p out && cp "$KIT_PROGRAM" "out/$(basename "$PWD")" && chmod +x "out/$(basename "$PWD")"
        ;;
esac
"""


class Place:
    """A folder with the script, and what stands in for the rest."""

    def __init__(self, folder):
        self.folder = folder
        self.calls = os.path.join(folder, "calls")
        for crate in ("base", "kubepast", "companion", "other"):
            for part in ("src", "specs", "proofs"):
                os.makedirs(os.path.join(folder, "crates", crate, part))
            self.write(f"crates/{crate}/src/lib.rt", "code")
        self.write("crates.txt", CRATES)
        self.write("program", PROGRAM)
        self.write("kit/rt", KIT, 0o755)
        shutil.copy(SCRIPT, os.path.join(folder, "kubepast"))

    def write(self, name, text, mode=0o644):
        path = os.path.join(self.folder, name)
        os.makedirs(os.path.dirname(path), exist_ok=True)
        with open(path, "w", encoding="utf-8") as file:
            file.write(text)
        os.chmod(path, mode)
        return path

    def path(self, name):
        return os.path.join(self.folder, name)

    def environment(self, **more):
        return {**os.environ, "PATH": self.path("kit") + ":" + os.environ["PATH"], "KIT_CALLS": self.calls,
                "KIT_PROGRAM": self.path("program"), **more}

    def call(self, *words, given="", out=subprocess.PIPE, **more):
        return subprocess.run([self.path("kubepast"), *words], input=given, stdout=out, stderr=subprocess.PIPE,
                              env=self.environment(**more), text=True, timeout=60, check=False)

    def built(self):
        """The calls of the kit since the last look."""
        try:
            with open(self.calls, encoding="utf-8") as file:
                lines = file.read().splitlines()
            os.remove(self.calls)
            return lines
        except FileNotFoundError:
            return []

    def on_terminal(self, *words, text_too=False, **more):
        """The text, what a terminal shows of standard error (and the text, if it goes there too), and how it ended."""
        mine, theirs = pty.openpty()
        with subprocess.Popen([self.path("kubepast"), *words], stdin=subprocess.DEVNULL,
                              stdout=theirs if text_too else subprocess.PIPE, stderr=theirs,
                              env=self.environment(**more)) as process:
            os.close(theirs)
            shown = b""
            while True:
                try:
                    piece = os.read(mine, 4096)
                except OSError:
                    break
                if not piece:
                    break
                shown += piece
            text = b"" if text_too else process.stdout.read()
            return text.decode(), shown.decode(), process.wait()


def usage_trials(place):
    for words in ([], ["judged"], ["--help"], [""]):
        answer = place.call(*words)
        yield f"usage for {words}", answer.returncode == 2 and answer.stdout == "usage\n" and not place.built()
    with open("/dev/full", "w", encoding="utf-8") as full:
        yield "usage that can't be written", place.call("no", out=full).returncode == 6


def building_trials(place):
    answer = place.call("judge", "a", "b")
    checks, *runs = place.built()
    checked = re.fullmatch(r"kubepast: all check --jobs [1-9][0-9]*", checks)
    yield "the first call builds", checked and runs == ["kubepast: run -- make 1 0"]
    yield "and runs", answer.returncode == 0 and answer.stdout == "kubepast [judge] [a] [b]\n"
    yield "standard error tells of it", "1 of 2 crates done: base" in answer.stderr and "2 of 2" in answer.stderr
    answer = place.call("judge", "a", "b")
    yield "the second doesn't build", not place.built() and answer.stderr == ""
    place.write("crates/other/src/lib.rt", "changed")
    place.call("judge")
    yield "what isn't below doesn't count", not place.built()
    for name in ("crates/base/src/lib.rt", "crates/kubepast/specs/New.antt", "crates.txt"):
        time.sleep(0.02)
        place.write(name, CRATES if name == "crates.txt" else "changed")
        place.call("judge")
        yield f"a change of {name} builds", len(place.built()) == 2
    os.utime(place.write("crates/base/src/lib.rt", "copied"), (0, 0))
    place.call("judge")
    yield "a source that brings an older time builds", len(place.built()) == 2
    place.write("crates/kubepast/out/kubepast.begun", "")
    place.call("judge")
    yield "a build that didn't end is done again", len(place.built()) == 2
    answer = place.call("explain", "U1")
    yield "the companion is a program of its own", answer.stdout == "companion [explain] [U1]\n"
    yield "tried by its own words", place.built()[-1:] == ["companion: run -- explain M1"]


def failing_trials(place):
    for step in ("all", "run"):
        time.sleep(0.02)
        place.write("crates/base/src/lib.rt", step)
        answer = place.call("judge", KIT_FAILS=step)
        yield f"`rt {step}` fails", answer.returncode == 70 and answer.stdout == "" and "it fails" in answer.stderr
        place.built()
        yield "and the next call builds", place.call("judge").returncode == 0 and len(place.built()) == 2
    time.sleep(0.02)
    place.write("crates/base/src/lib.rt", "again")
    answer = place.call("judge", KIT_TOUCHES=place.path("crates/base/src/lib.rt"))
    yield "sources change meanwhile", answer.returncode == 70 and answer.stdout == "" and "changed" in answer.stderr
    place.built()
    yield "and are built next", place.call("judge").returncode == 0 and len(place.built()) == 2


def passing_trials(place):
    words = ["show", "a b", "", "*", "$HOME", "-n", "\\", "x\ny"]
    told = "kubepast" + "".join(f" [{word}]" for word in words) + "\n"
    yield "words", place.call(*words).stdout == told
    answer = place.call("judge", "s", "-", given="one\ntwo", STAND_IN="input")
    yield "input", answer.stdout == "kubepast [judge] [s] [-]\none\ntwo"
    for status in range(9):
        answer = place.call("verify", STAND_IN=f"status{status}")
        yield f"status {status}", answer.returncode == status and answer.stderr == ""
    yield "what ends a program", place.call("judge", STAND_IN="killTERM").returncode == -signal.SIGTERM


def terminal_trials(place):
    log = place.path("large")
    with open(log, "wb") as file:
        file.truncate(25_000_000)
    text, shown, status = place.on_terminal("judge", "s", log, STAND_IN="slow")
    yield "a large log is told of", status == 0 and text == f"kubepast [judge] [s] [{log}]\ndone\n"
    yield "how much was read", "60 % of 25 MB read" in shown
    yield "and that it was", "25 MB read, being judged" in shown
    yield "the line is cleared", shown.endswith("\r\033[K")
    text, shown, status = place.on_terminal("judge", "s", log, STAND_IN="killTERM")
    yield "what ends it ends the script", status == -signal.SIGTERM
    text, shown, status = place.on_terminal("judge", "s", "small", STAND_IN="status4")
    yield "of a small log nothing is told", status == 4 and shown == ""
    _, shown, status = place.on_terminal("judge", "s", log, text_too=True, STAND_IN="slow")
    wanted = f"\r\033[Kkubepast [judge] [s] [{log}]\r\ndone\r\n"
    yield "a text on the terminal waits", status == 0 and shown.endswith(wanted)


def main():
    held, count = 0, 0
    with tempfile.TemporaryDirectory() as folder:
        place = Place(folder)
        for trials in (usage_trials, building_trials, failing_trials, passing_trials, terminal_trials):
            for what, holds in trials(place):
                count += 1
                held += bool(holds)
                if not holds:
                    print(f"{what}: it doesn't hold")
    print(f"{held} of {count} hold")
    return 0 if held == count else 1


if __name__ == "__main__":
    sys.exit(main())
