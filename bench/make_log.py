#!/usr/bin/env python3
"""Makes a setup and an audit log of a cluster that never was, for measuring.

make_log.py EVENTS FOLDER [--seed N] [--objects N] [--lists PERCENT] [--spread MILLISECONDS] [--body BYTES] [--false]

Writes FOLDER/setup.json and FOLDER/log.json. A serial machine handles one request each millisecond, on configmaps of
one namespace; each request is received up to SPREAD before its turn and answered up to SPREAD behind it, so windows
overlap as clients do. The log is true and is explained; with --false one read near its end shows an object that was
replaced long before.
"""
import argparse
import json
import os
import random
from datetime import datetime, timedelta, timezone

START = datetime(2024, 5, 1, 10, tzinfo=timezone.utc)
COLLECTION = "/api/v1/namespaces/d/configmaps"
RESOURCE = {"group": "", "version": "v1", "resource": "configmaps", "kind": "ConfigMap",
            "listKind": "ConfigMapList", "namespaced": True, "objectPatch": "merge"}


def compact(value):
    return json.dumps(value, separators=(",", ":"))


def moment(micros):
    return (START + timedelta(microseconds=micros)).strftime("%Y-%m-%dT%H:%M:%S.%fZ")


def config_map(name, value, **metadata):
    return {"kind": "ConfigMap", "apiVersion": "v1",
            "metadata": {"name": name, "namespace": "d", **metadata}, "data": {"k": value}}


def status(name, **members):
    return {"kind": "Status", "apiVersion": "v1", "details": {"name": name, "kind": "configmaps"}, **members}


class Cluster:
    """The serial machine: what is there, and what each request is answered."""

    def __init__(self, options, chance):
        self.options, self.chance = options, chance
        self.revision, self.objects, self.replaced, self.turn = 10, {}, [], 0

    def value(self):
        return "%d-" % self.turn + "x" * self.options.body

    def stored(self, name, uid, value):
        if name in self.objects:
            self.replaced.append(self.objects[name])
        self.revision += 1
        self.objects[name] = config_map(name, value, uid=uid, resourceVersion=str(self.revision))
        return self.objects[name]

    def request(self):
        """The next request: verb, path, code, request body, answer."""
        self.turn += 1
        name = "c%d" % self.chance.randrange(self.options.objects)
        path, old = COLLECTION + "/" + name, self.objects.get(name)
        kind = self.chance.random() * 100
        if kind < self.options.lists:
            items = [self.objects[known] for known in sorted(self.objects)]
            answer = {"kind": "ConfigMapList", "apiVersion": "v1",
                      "metadata": {"resourceVersion": str(self.revision)}, "items": items}
            return "list", COLLECTION, 200, None, answer
        kind = self.chance.random()
        if old is None and kind < 0.6:
            value = self.value()
            return "create", COLLECTION, 201, config_map(name, value), self.stored(name, "u%d" % self.turn, value)
        if old is None:
            return "get", path, 404, None, status(name, status="Failure", reason="NotFound", code=404)
        uid = old["metadata"]["uid"]
        if kind < 0.3:
            value = self.value()
            return "update", path, 200, config_map(name, value), self.stored(name, uid, value)
        if kind < 0.45:
            value = self.value()
            return "patch", path, 200, {"data": {"k": value}}, self.stored(name, uid, value)
        if kind < 0.5:
            self.revision += 1
            del self.objects[name]
            details = {"name": name, "kind": "configmaps", "uid": uid}
            return "delete", path, 200, None, status(name, status="Success", details=details)
        return "get", path, 200, None, old


def events(options):
    chance = random.Random(options.seed)
    cluster, spread, lied = Cluster(options, chance), options.spread * 1000, not options.false
    for number in range(1, options.events + 1):
        verb, path, code, request, answer = cluster.request()
        if not lied and number > options.events * 0.9 and verb == "get" and code == 200:
            name = answer["metadata"]["name"]
            older = [item for item in cluster.replaced if item["metadata"]["name"] == name]
            if older:
                answer, lied = older[0], True
        turn = number * 1000 + spread
        received = turn - chance.randint(0, spread)
        answered = turn + chance.randint(0, spread)
        event = {"kind": "Event", "apiVersion": "audit.k8s.io/v1", "level": "RequestResponse",
                 "auditID": "a%d" % number, "stage": "ResponseComplete", "requestURI": path, "verb": verb,
                 "user": {"username": "u"}, "responseStatus": {"metadata": {}, "code": code}}
        if request is not None:
            event["requestObject"] = request
        event["responseObject"] = answer
        event["requestReceivedTimestamp"] = moment(received)
        event["stageTimestamp"] = moment(answered)
        yield answered, compact(event)


def main():
    words = argparse.ArgumentParser(description=__doc__, formatter_class=argparse.RawDescriptionHelpFormatter)
    words.add_argument("events", type=int)
    words.add_argument("folder")
    words.add_argument("--seed", type=int, default=1)
    words.add_argument("--objects", type=int, default=256)
    words.add_argument("--lists", type=float, default=0.1)
    words.add_argument("--spread", type=int, default=4)
    words.add_argument("--body", type=int, default=64)
    words.add_argument("--false", action="store_true")
    options = words.parse_args()
    os.makedirs(options.folder, exist_ok=True)
    setup = {"kind": "PastSetup", "version": 1, "start": {"revision": "10", "time": moment(0)},
             "policy": {"apiVersion": "audit.k8s.io/v1", "kind": "Policy", "rules": [{"level": "RequestResponse"}]},
             "resources": [RESOURCE], "snapshot": []}
    with open(os.path.join(options.folder, "setup.json"), "w") as file:
        file.write(compact(setup) + "\n")
    # The server logs an event when it has been answered.
    pending, reach = [], options.spread * 1000
    with open(os.path.join(options.folder, "log.json"), "w") as file:
        for answered, line in events(options):
            pending.append((answered, line))
            if len(pending) > 4 * options.spread + 1000:
                pending.sort()
                ready = [entry for entry in pending if entry[0] < answered - reach]
                pending = [entry for entry in pending if entry[0] >= answered - reach]
                file.writelines(text + "\n" for _, text in ready)
        pending.sort()
        file.writelines(text + "\n" for _, text in pending)


if __name__ == "__main__":
    main()
