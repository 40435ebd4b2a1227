#!/usr/bin/env python3
"""Looks how the time of `setup` grows with the number of its files.

growth_files.py --companion PROGRAM [--sizes LIST] [--kinds LIST] [--objects N] [--most SECONDS] [--keep FOLDER]

For each kind and each size (by default 1000,10000) as many lists are made, each of another resource and of --objects
objects (by default 1), with the `APIResourceList` files that have these resources, and `setup` is run over all of
them. A line tells the bytes, the processor time, the peak of memory, by how much the time grew since the size before, and
how the run ended. n log n grows by 13 at most for ten times the size. A kind stops where a run takes longer than
--most seconds (by default 120).

  lists      ten resources to an `APIResourceList`
  documents  an `APIResourceList` for each list
  together   one `APIResourceList` for all
  twice      as lists, and the last list is once more there: the refusal `twice`
  unknown    as lists, and behind them a list of a resource that no file has: the refusal `unknown`
  broken     as lists, and the last object has the uid of the first: the refusal of a rule (S13) by the last file
"""
import argparse
import os
import shutil
import subprocess
import tempfile

from make_log import compact, moment

KINDS = {"lists": 10, "documents": 1, "together": 0, "twice": 10, "unknown": 10, "broken": 10}


def listing(number, group, objects):
    """A list of a resource, whose objects have a revision and a uid that no other has."""
    items = [{"metadata": {"name": "o%d" % at, "namespace": "d", "uid": f"u-{number}-{at}",
                           "resourceVersion": str(1 + number * objects + at)}} for at in range(objects)]
    return {"kind": "Thing%dList" % number, "apiVersion": group, "metadata": {"resourceVersion": str(10 ** 9)}, "items": items}


def document(group, numbers):
    resources = [{"name": "things%d" % number, "namespaced": True, "kind": "Thing%d" % number, "verbs": ["list"]}
                 for number in numbers]
    return {"kind": "APIResourceList", "groupVersion": group, "resources": resources}


def files(kind, size, objects):
    """The files of a kind, by their names and in their order."""
    each = KINDS[kind] or size
    groups = {at: "g%d.example/v1" % (at // each) for at in range(size)}
    made = {"d%d.json" % at: document(groups[at], range(at, min(at + each, size))) for at in range(0, size, each)}
    made.update({"l%d.json" % at: listing(at, groups[at], objects) for at in range(size)})
    if kind == "twice":
        made["again.json"] = listing(size - 1, groups[size - 1], objects)
    if kind == "broken":
        last = made["l%d.json" % (size - 1)]
        last["items"][-1]["metadata"]["uid"] = "u-0-0"
    if kind == "unknown":
        made["more.json"] = listing(size, groups[0], objects)
    return made


def made(program, folder, names):
    """Processor seconds of all threads, peak kilobytes, and how the run ended."""
    ran = subprocess.Popen([program, "setup", moment(0), "policy.json", *names], cwd=folder, stdout=subprocess.PIPE)
    text = ran.stdout.read(80)
    while ran.stdout.read(1 << 20):
        pass
    _, status, used = os.wait4(ran.pid, 0)
    words = text.decode("utf-8", "replace").split("\n")[0]
    return used.ru_utime + used.ru_stime, used.ru_maxrss, f"{os.waitstatus_to_exitcode(status)} {words[:40]}"


def main():
    words = argparse.ArgumentParser(description=__doc__, formatter_class=argparse.RawDescriptionHelpFormatter)
    words.add_argument("--companion", required=True)
    words.add_argument("--sizes", default="1000,10000")
    words.add_argument("--kinds", default=",".join(KINDS))
    words.add_argument("--objects", type=int, default=1)
    words.add_argument("--most", type=float, default=120)
    words.add_argument("--keep", default="")
    asked = words.parse_args()
    policy = {"apiVersion": "audit.k8s.io/v1", "kind": "Policy", "rules": [{"level": "RequestResponse"}]}
    for kind in asked.kinds.split(","):
        before = None
        for size in map(int, asked.sizes.split(",")):
            folder = os.path.join(asked.keep, f"{kind}-{size}") if asked.keep else tempfile.mkdtemp()
            os.makedirs(folder, exist_ok=True)
            given = files(kind, size, asked.objects)
            for name, value in {"policy.json": policy, **given}.items():
                with open(os.path.join(folder, name), "w") as file:
                    file.write(compact(value) + "\n")
            length = sum(os.path.getsize(os.path.join(folder, name)) for name in given)
            taken, peak, answer = made(os.path.abspath(asked.companion), folder, given)
            grown = "" if before is None else f", {taken / before:.1f} times"
            print(f"{kind:10} {size:7} lists {length / 1e6:7.1f} MB {taken:8.2f} s {peak / 1024:7.0f} MB{grown}  {answer}", flush=True)
            before = taken
            if not asked.keep:
                shutil.rmtree(folder)
            if taken > asked.most:
                break


main()
