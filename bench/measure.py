#!/usr/bin/env python3
"""Measures the program on made logs, phase by phase, beside a yardstick.

measure.py PROGRAM [--events N] [--bytes LIST] [--keep FOLDER]

For each size of LIST (bytes an event, by default 700,1400,5000) a log of N events (by default 100000) is made by
make_log.py and judged by PROGRAM. A line is printed for each phase, with its wall time, its processor time, how many
threads were at work in it on average, and the peak of memory up to its end. The phases are told apart from outside, by
what the system counts of the process 50 times a second: bytes read and written, threads, memory.

  reading   until the log is read to its end
  building  what setup and log tell
  judging   the last stretch in which several threads work: claims, settling, places
  writing   until the text is written
  ending    until the process is gone

The last line has the whole, and the time that `parsefloor` takes for the same log in the same run: serde_json of
ordinary Rust, reading each line on one thread. A ratio to it means something, a time doesn't. parsefloor is built where
cargo and librust-serde-json-dev (Debian) are there.
"""
import argparse
import os
import shutil
import subprocess
import sys
import tempfile
import time

HERE = os.path.dirname(os.path.abspath(__file__))
TICKS = os.sysconf("SC_CLK_TCK")
# So many samples long one thread may settle between claims and places.
SETTLING = 5


def made(folder, events, size):
    """A log of about so many bytes an event: the body is fitted by two small logs."""
    def bytes_of(count, body):
        subprocess.run([sys.executable, os.path.join(HERE, "make_log.py"), str(count), folder, "--body", str(body),
                        "--lists", "0"], check=True, stdout=subprocess.DEVNULL)
        return os.path.getsize(os.path.join(folder, "log.json"))
    small, large = bytes_of(2000, 10) / 2000, bytes_of(2000, 1010) / 2000
    body = max(1, round(10 + (size - small) * 1000 / (large - small)))
    return bytes_of(events, body)


def counted(pid):
    """Bytes read and written, threads, processor seconds and bytes of memory of a process."""
    with open(f"/proc/{pid}/io") as file:
        io = dict(line.split(": ") for line in file.read().splitlines())
    with open(f"/proc/{pid}/stat") as file:
        stat = file.read().rsplit(")", 1)[1].split()
    return (int(io["rchar"]), int(io["wchar"]), int(stat[17]), (int(stat[11]) + int(stat[12])) / TICKS,
            int(stat[21]) * os.sysconf("SC_PAGE_SIZE"))


def watched(words, size):
    """Runs the program, and cuts its run into phases."""
    begun, samples = time.monotonic(), []
    with open(os.devnull, "w") as nowhere:
        process = subprocess.Popen(words, stdout=nowhere)
        while process.poll() is None:
            try:
                samples.append((time.monotonic() - begun, *counted(process.pid)))
            except (OSError, KeyError):
                break
            time.sleep(0.02)
        status = process.wait()
    ended = time.monotonic() - begun
    return status, ended, phases(samples, size)


def phases(samples, size):
    """Puts a phase to each sample: events are judged in the last stretch in which several threads work, but for settling."""
    read = next((i for i, sample in enumerate(samples) if sample[1] >= size), len(samples))
    last = max((i for i, sample in enumerate(samples) if i > read and sample[3] > 1), default=read)
    first = last
    while first > read and any(sample[3] > 1 for sample in samples[max(read, first - SETTLING):first]):
        first -= 1
    marks = []
    for i, (at, _, written, _, processor, memory) in enumerate(samples):
        name = "reading" if i < read else "building" if i < first else "judging" if i <= last else "writing"
        if name == "writing" and written > samples[0][2]:
            name = "ending"
        marks.append((name, at, processor, memory))
    return marks


def told(marks, ended):
    before, spent, peak = 0.0, 0.0, 0
    for phase in ("reading", "building", "judging", "writing", "ending"):
        own = [mark for mark in marks if mark[0] == phase]
        if not own:
            continue
        until = ended if phase == marks[-1][0] else own[-1][1]
        peak = max(peak, max(mark[3] for mark in own))
        wall, processor = until - before, own[-1][2] - spent
        print(f"  {phase:9} {wall:7.2f} s {processor:7.2f} s processor {processor / max(wall, 0.02):5.1f} at work"
              f" {peak / 1e6:8.0f} MB")
        before, spent = until, own[-1][2]
    return peak


def floor():
    """The yardstick's program, built, or None."""
    folder = os.path.join(tempfile.gettempdir(), "parsefloor")
    if not shutil.which("cargo"):
        return None
    shutil.copytree(os.path.join(HERE, "parsefloor"), folder, dirs_exist_ok=True)
    # Debian's packages of crates stand in the place of the index.
    debian = ["--config", 'source.crates-io.replace-with="debian"', "--config", 'source.debian.directory="/usr/share/cargo/registry"']
    ran = subprocess.run(["cargo", "build", "--release", "--offline", "--quiet", *debian], cwd=folder)
    return os.path.join(folder, "target/release/parsefloor") if ran.returncode == 0 else None


def main():
    words = argparse.ArgumentParser(description=__doc__, formatter_class=argparse.RawDescriptionHelpFormatter)
    words.add_argument("program")
    words.add_argument("--events", type=int, default=100_000)
    words.add_argument("--bytes", default="700,1400,5000")
    words.add_argument("--keep", help="a folder for the logs, which are then left there")
    options = words.parse_args()
    yardstick = floor()
    for size in map(int, options.bytes.split(",")):
        folder = os.path.join(options.keep or tempfile.mkdtemp(), f"log-{options.events}-{size}")
        os.makedirs(folder, exist_ok=True)
        length = made(folder, options.events, size)
        log = os.path.join(folder, "log.json")
        print(f"{options.events} events, {length / 1e6:.0f} MB, {length / options.events:.0f} bytes an event")
        status, ended, marks = watched([options.program, "judge", os.path.join(folder, "setup.json"), log], length)
        peak = told(marks, ended) if marks else 0
        line = f"  whole     {ended:7.2f} s, status {status}, {peak / length:.1f} times the log's bytes"
        if yardstick:
            begun = time.monotonic()
            subprocess.run([yardstick, log], check=True, stdout=subprocess.DEVNULL)
            taken = time.monotonic() - begun
            line += f"; parsefloor {taken:.2f} s, so {ended / taken:.1f} times that"
        print(line)
        if not options.keep:
            shutil.rmtree(os.path.dirname(folder))


if __name__ == "__main__":
    main()
