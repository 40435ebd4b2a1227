#!/usr/bin/env python3
"""Looks how time grows with logs that are made to be slow.

growth.py PROGRAM [--companion PROGRAM] [--sizes LIST] [--kinds LIST] [--most SECONDS] [--keep FOLDER]

A writer of requests chooses much of an audit log. Each kind of log below leans on one search of the program. For each
kind and each size (by default 1000,10000,100000) a setup and a log are made and judged; a line tells the bytes, the
processor time of all threads, the peak of memory, and by how much the time grew since the size before. n log n grows by
13 at most for ten times the size. A kind stops where a run takes longer than --most seconds (by default 120). The last
two kinds are sifted by the companion (`sift --left`), where it is given.

  plain      creates, updates and reads, for comparison
  prefixes   unrecorded creates, each with another generateName
  nested     the same with 200 prefixes, each a prefix of the next
  namespaces unrecorded removals of whole collections, each in another namespace
  bindings   unrecorded creates of role bindings, each with another generateName, and refused requests
  decisions  roles and bindings that come and go within the lag, and refused requests
  ends       the same, all there where the ranges of the refused requests begin, to end one behind the other in them
  product    the same with one binding more that stays, its role the last to end
  ends_once, product_once    these with ten refused requests alone, to tell what one request costs
  pages      first pages of one list that all have one token
  inserts    JSON Patches that insert at the front of a list, ten to an object
  members    JSON Patches that remove the first members of a large object and add them again
  spans      writes one behind the other, each with a read whose window ends there
  absent     reads answered 404 in windows that stay open, among creates and deletes
  resources  hundreds of tracked resources, the used one the last of them
  clouded    unrecorded writes that changed nothing, each with a revision right behind, and reads whose windows stay open
  names      one object, written over and over
  subjects   bindings that all name one group
  sift_ids   one line as large as the others together, and these have its audit ID and stage, and differ from it
  sift_lists EventLists of up to 20,000 events each, delivered twice
"""
import argparse
import multiprocessing
import os
import shutil
import subprocess
import sys
import tempfile

from make_log import COLLECTION, RESOURCE, compact, config_map, moment, status

RBAC = "rbac.authorization.k8s.io"
ROLES = f"/apis/{RBAC}/v1/namespaces/d/roles"
BINDINGS = f"/apis/{RBAC}/v1/namespaces/d/rolebindings"


def resource(name, kind, namespaced=True, group="", **more):
    return {"group": group, "version": "v1", "resource": name, "kind": kind, "listKind": kind + "List",
            "namespaced": namespaced, **more}


class Log:
    """A log in the making: each event a millisecond behind the one before, unless it says otherwise."""

    def __init__(self):
        self.revision, self.lines, self.now, self.stored = 10, [], 1000, {}
        self.setup = {"kind": "PastSetup", "version": 1, "start": {"revision": "10", "time": moment(0)},
                      "policy": {"apiVersion": "audit.k8s.io/v1", "kind": "Policy",
                                 "rules": [{"level": "RequestResponse"}]},
                      "resources": [dict(RESOURCE)], "snapshot": []}

    def event(self, verb, uri, code, request, answer, received=None, answered=None, **more):
        self.now += 1000
        event = {"kind": "Event", "apiVersion": "audit.k8s.io/v1", "level": "RequestResponse",
                 "auditID": "a%d" % len(self.lines), "stage": "ResponseComplete", "requestURI": uri, "verb": verb,
                 "user": {"username": "u", "groups": ["system:masters"]}, "responseStatus": {"metadata": {}, "code": code}}
        event.update(more)
        if request is not None:
            event["requestObject"] = request
        if answer is not None:
            event["responseObject"] = answer
        event["requestReceivedTimestamp"] = moment(self.now if received is None else received)
        event["stageTimestamp"] = moment(self.now + 500 if answered is None else answered)
        self.lines.append(compact(event))

    def write(self, name, value, verb="create", **more):
        self.revision += 1
        uid = "u-" + name
        self.stored[name] = config_map(name, value, uid=uid, resourceVersion=str(self.revision))
        uri, code = (COLLECTION, 201) if verb == "create" else (COLLECTION + "/" + name, 200)
        self.event(verb, uri, code, config_map(name, value), self.stored[name], **more)

    def read(self, name, **more):
        self.event("get", COLLECTION + "/" + name, 200, None, self.stored[name], **more)

    def remove(self, name, **more):
        self.revision += 1
        del self.stored[name]
        details = {"name": name, "kind": "configmaps", "uid": "u-" + name}
        self.event("delete", COLLECTION + "/" + name, 200, None, status(name, status="Success", details=details), **more)

    def missing(self, name, **more):
        answer = status(name, status="Failure", reason="NotFound", code=404)
        self.event("get", COLLECTION + "/" + name, 404, None, answer, **more)

    def role_object(self, plural, name, **members):
        self.revision += 1
        kind = "Role" if plural == "roles" else "RoleBinding"
        body = {"kind": kind, "apiVersion": RBAC + "/v1", "metadata": {"name": name, "namespace": "d"}, **members}
        answer = {**body, "metadata": {**body["metadata"], "uid": f"u-{plural}-{name}", "resourceVersion": str(self.revision)}}
        self.event("create", ROLES if plural == "roles" else BINDINGS, 201, body, answer)

    def remove_role_object(self, plural, name):
        self.revision += 1
        details = {"name": name, "kind": plural, "uid": f"u-{plural}-{name}"}
        self.event("delete", (ROLES if plural == "roles" else BINDINGS) + "/" + name, 200, None,
                   status(name, status="Success", details=details))

    def grant(self, name):
        rule = {"verbs": ["get"], "apiGroups": [""], "resources": ["configmaps"]}
        self.role_object("roles", name, rules=[rule])
        self.role_object("rolebindings", name, subjects=[{"kind": "User", "name": "anna", "apiGroup": RBAC}],
                         roleRef={"apiGroup": RBAC, "kind": "Role", "name": name})

    def refuse(self, **user):
        self.event("get", COLLECTION + "/c", 403, None, status("c", status="Failure", reason="Forbidden", code=403),
                   user={"username": "anna", **user}, annotations={"authorization.k8s.io/decision": "forbid"})

    def authorize(self, lag):
        self.setup.update(authorize=True, lagNanos=lag)
        self.setup["resources"] += [resource("roles", "Role", group=RBAC), resource("clusterroles", "ClusterRole", False, RBAC),
                                    resource("rolebindings", "RoleBinding", group=RBAC),
                                    resource("clusterrolebindings", "ClusterRoleBinding", False, RBAC)]


def plain(log, size):
    for number in range(size // 4):
        name = "c%d" % number
        log.write(name, "a")
        log.read(name)
        log.write(name, "b", "update")
        log.read(name)


def prefixes(log, size):
    for number in range(size // 2):
        body = {"kind": "ConfigMap", "apiVersion": "v1", "metadata": {"generateName": "p%d-" % number, "namespace": "d"}}
        log.revision += 1
        log.event("create", COLLECTION, 201, body, None, level="Request", user={"username": "p"})
        log.write("c%d" % number, "a")
    log.setup["policy"]["rules"] = [{"level": "Request", "users": ["p"]}, {"level": "RequestResponse"}]


def decisions(log, size):
    log.authorize(size * 10 ** 6)
    log.now += size * 1000
    for number in range(size // 5):
        name = "r%d" % number
        log.grant(name)
        log.refuse()
        log.remove_role_object("rolebindings", name)
        log.remove_role_object("roles", name)


def ends(log, size, stays=False, refusals=None):
    log.authorize(size * 10 ** 6)
    log.write("w", "")
    names = ["r%06d" % number for number in range(size // 7 if refusals is None else size // 6)]
    for name in names + ["z"] * stays:
        log.grant(name)
    log.now += size * 1000  # the caches may still be here when the refusals come
    for name in names:
        for plural in ("rolebindings", "roles"):
            log.remove_role_object(plural, name)
            log.write("w", plural + name, "update")  # the removal was before this revision
    if stays:
        log.remove_role_object("roles", "z")
    for _ in names if refusals is None else range(refusals):
        log.refuse()


def product(log, size):
    ends(log, size, stays=True)


def ends_once(log, size):
    ends(log, size, refusals=10)


def product_once(log, size):
    ends(log, size, stays=True, refusals=10)


def pages(log, size):
    log.write("a", "1")
    log.write("b", "1")

    def page(token, uri, item):
        metadata = {"resourceVersion": str(log.revision), **({"continue": token} if token else {})}
        log.event("list", uri, 200, None, {"kind": "ConfigMapList", "apiVersion": "v1", "metadata": metadata, "items": [item]})
    for _ in range(size - 3):
        page("t", COLLECTION + "?limit=1", log.stored["a"])
    page("", COLLECTION + "?limit=1&continue=t", log.stored["b"])


def inserts(log, size):
    for number in range(10):
        name = "c%d" % number
        count = size // 10
        body = {**config_map(name, "a"), "binaryData": {"l": []}}
        log.revision += 1
        made = {**body, "metadata": {**body["metadata"], "uid": "u-" + name, "resourceVersion": str(log.revision)}}
        log.event("create", COLLECTION, 201, body, made)
        log.revision += 1
        patched = {**made, "binaryData": {"l": ["x"] * count},
                   "metadata": {**made["metadata"], "resourceVersion": str(log.revision)}}
        patch = [{"op": "add", "path": "/binaryData/l/0", "value": "x"}] * count
        log.event("patch", COLLECTION + "/" + name, 200, patch, patched)


def members(log, size):
    body = {**config_map("c", "a"), "binaryData": {"m%06d" % number: "x" for number in range(size)}}
    paths = ["/binaryData/m%06d" % number for number in range(size // 20)]
    patch = [{"op": "remove", "path": path} for path in paths]
    patch += [{"op": "add", "path": path, "value": "x"} for path in reversed(paths)]
    for number in range(11):
        log.revision += 1
        made = {**body, "metadata": {**body["metadata"], "uid": "u-c", "resourceVersion": str(log.revision)}}
        if number == 0:
            log.event("create", COLLECTION, 201, body, made)
        else:
            log.event("patch", COLLECTION + "/c", 200, patch, made)


def spans(log, size):
    log.write("a", "0")
    for number in range(size // 2):
        begun = log.now
        log.write("a", str(number), "update")
        log.read("a", received=begun, answered=log.now + 600)


def absent(log, size):
    end = (size + 10) * 1000
    for number in range(size // 3):
        name = "c%d" % number
        log.write(name, "a")
        log.remove(name)
        log.missing(name, received=500, answered=end)


def resources(log, size):
    for number in range(400):
        thing = resource("things%d" % number, "Thing%d" % number, group="g%d.example" % (number % 7))
        log.setup["resources"].insert(0, thing)
    plain(log, size)


def names(log, size):
    log.write("a", "0")
    for number in range(size - 1):
        log.write("a", str(number % 7), "update")


def subjects(log, size):
    log.authorize(0)
    rule = [{"verbs": ["get"], "apiGroups": [""], "resources": ["secrets"]}]
    log.role_object("roles", "r", rules=rule)
    for number in range(size // 2):
        log.role_object("rolebindings", "b%d" % number, subjects=[{"kind": "Group", "name": "g", "apiGroup": RBAC}],
                        roleRef={"apiGroup": RBAC, "kind": "Role", "name": "r"})
        log.refuse(groups=["g"])


def namespaces(log, size):
    for number in range(size // 2):
        log.revision += 1
        log.event("deletecollection", "/api/v1/namespaces/n%d/configmaps" % number, 200, None, None, level="Metadata",
                  user={"username": "p"})
        log.write("c%d" % number, "a")
    log.setup["policy"]["rules"] = [{"level": "Metadata", "users": ["p"]}, {"level": "RequestResponse"}]


def nested(log, size):
    for number in range(size // 2):
        body = {"kind": "ConfigMap", "apiVersion": "v1", "metadata": {"generateName": "p" * (number % 200 + 1), "namespace": "d"}}
        log.revision += 1
        log.event("create", COLLECTION, 201, body, None, level="Request", user={"username": "p"})
        log.write("c%d" % number, "a")
    log.setup["policy"]["rules"] = [{"level": "Request", "users": ["p"]}, {"level": "RequestResponse"}]


def clouded(log, size):
    log.write("a", "0")
    end = (size + 10) * 1000
    for number in range(size // 3):
        log.event("patch", COLLECTION + "/a", 200, None, None, level="Metadata", user={"username": "p"})
        log.write("a", str(number), "update")
        log.read("a", received=500, answered=end)
    log.setup["policy"]["rules"] = [{"level": "Metadata", "users": ["p"]}, {"level": "RequestResponse"}]


def bindings(log, size):
    log.authorize(0)
    rule = [{"verbs": ["get"], "apiGroups": [""], "resources": ["configmaps"]}]
    log.role_object("roles", "r", rules=rule)
    for number in range(size // 2):
        body = {"kind": "RoleBinding", "apiVersion": RBAC + "/v1",
                "metadata": {"generateName": "b%d-" % number, "namespace": "d"},
                "subjects": [{"kind": "User", "name": "anna", "apiGroup": RBAC}],
                "roleRef": {"apiGroup": RBAC, "kind": "Role", "name": "r"}}
        log.revision += 1
        log.event("create", BINDINGS, 201, body, None, level="Request", user={"username": "p"})
        log.refuse()
    log.setup["policy"]["rules"] = [{"level": "Request", "users": ["p"]}, {"level": "RequestResponse"}]


def sift_ids(log, size):
    large = config_map("c", "x" * min(300 * size, 16_000_000))
    log.event("create", COLLECTION, 201, large, None, level="Request", auditID="a")
    for number in range(size - 1):
        log.event("get", COLLECTION + "/c%d" % number, 200, None, None, level="Metadata", auditID="a")


def sift_lists(log, size):
    for number in range(size // 2):
        log.write("c%d" % number, "a")
    lists = [compact({"kind": "EventList", "apiVersion": "audit.k8s.io/v1", "items": []})[:-2]
             + ",".join(log.lines[at:at + 20000]) + "]}" for at in range(0, size // 2, 20000)]  # a line has 16 MiB
    log.lines = lists * 2


SIFTED = {it.__name__: it for it in (sift_ids, sift_lists)}
KINDS = {it.__name__: it for it in (plain, prefixes, nested, namespaces, decisions, ends, product, ends_once, product_once,
                                    bindings, pages, inserts, members, spans, absent, resources, clouded, names, subjects)}


def answered(words, folder):
    """Processor seconds of all threads, peak kilobytes, and the first words of the answer."""
    ran = subprocess.Popen(words, cwd=folder, stdout=subprocess.PIPE)
    text = ran.stdout.read(80)
    while ran.stdout.read(1 << 20):
        pass
    _, _, used = os.wait4(ran.pid, 0)
    return used.ru_utime + used.ru_stime, used.ru_maxrss, text.decode("utf-8", "replace").split("\n")[0]


def write(kind, size, folder):
    log = Log()
    (KINDS | SIFTED)[kind](log, size)
    for name, text in (("setup.json", compact(log.setup) + "\n"), ("log.json", "\n".join(log.lines) + "\n")):
        with open(os.path.join(folder, name), "w") as file:
            file.write(text)


def main():
    words = argparse.ArgumentParser(description=__doc__, formatter_class=argparse.RawDescriptionHelpFormatter)
    words.add_argument("program")
    words.add_argument("--companion", default="")
    words.add_argument("--sizes", default="1000,10000,100000")
    words.add_argument("--kinds", default="")
    words.add_argument("--most", type=float, default=120)
    words.add_argument("--keep", default="")
    asked = words.parse_args()
    judge = [os.path.abspath(asked.program), "judge", "setup.json", "log.json"]
    sift = [os.path.abspath(asked.companion), "sift", "--left", "log.json"]
    for kind in asked.kinds.split(",") if asked.kinds else [*KINDS, *(SIFTED if asked.companion else ())]:
        before = None
        for size in map(int, asked.sizes.split(",")):
            folder = os.path.join(asked.keep, f"{kind}-{size}") if asked.keep else tempfile.mkdtemp()
            os.makedirs(folder, exist_ok=True)
            # By a process of its own: what is forked here begins with the peak of this one's memory.
            maker = multiprocessing.Process(target=write, args=(kind, size, folder))
            maker.start()
            maker.join()
            length = os.path.getsize(os.path.join(folder, "log.json"))
            taken, peak, answer = answered(sift if kind in SIFTED else judge, folder)
            grown = "" if before is None else f", {taken / before:.1f} times"
            print(f"{kind:12} {size:7} events {length / 1e6:7.1f} MB {taken:8.2f} s {peak / 1024:7.0f} MB{grown}  {answer}",
                  flush=True)
            before = taken
            if not asked.keep:
                shutil.rmtree(folder)
            if taken > asked.most:
                break


main()
