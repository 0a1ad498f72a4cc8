#!/usr/bin/env python3
"""Many clients of random lines over one server, and the trail that it rolls out as their judge.

Each client is a subject of its own and sends lines over its own connection: searches, lists of changes, policies. At the end
the trail is rolled out. Its order is taken as the order in which the calls came: a slow plain model is led along it, and each
reply that a client read has to be the one that this model gives at that record. An EXPLAIN, which leaves no record, has to be
ruled as the document of the edition that it names rules, and no client may be told of an edition below one that it was told of
before. Exits with 1 where one is not.

    bench/histories/histories.py [--clients 16] [--requests 2000] [--seed 1] [--workers 16] PROGRAM
"""
import argparse
import json
import os
import random
import socket
import subprocess
import sys
import tempfile
import threading
import time

NAMES = ["north", "south", "east", "west"]
CLASSES = ["road", "mast", "parcel"]
ACTIONS = ["read", "add", "reshape", "delete"]
POLICIES = [
    {"root": {"combine": "first-applicable", "policy": "start", "rules": [{"effect": "permit", "rule": "open"}]}},
    {"root": {"combine": "first-applicable", "policy": "p", "rules": [
        {"effect": "permit", "rule": "roads", "target": [[[{"class": "road"}]]]},
        {"effect": "permit", "rule": "own", "when": [{"own": True}]}]}},
    {"root": {"combine": "deny-overrides", "set": "top", "of": [
        {"combine": "permit-overrides", "policy": "most", "rules": [
            {"effect": "permit", "rule": "read", "target": [[[{"action": "read"}]]]},
            {"effect": "permit", "rule": "change", "when": [{"not": {"class": "parcel"}}]}]},
        {"combine": "deny-overrides", "policy": "masts", "rules": [
            {"effect": "deny", "rule": "no-mast", "target": [[[{"class": "mast"}, {"office": "south"}]]]}]}]}},
]


# -- the plain model ---------------------------------------------------------------------------------------------------

def holds(match, question):
    """Whether a match, or an atom, holds of a question."""
    (key, wanted), = match.items()
    if key == "own":
        return question["owner"] == question["office"]
    if key == "not":
        return not holds(wanted, question)
    return question[key] == wanted


def target_holds(node, question):
    return all(any(all(holds(m, question) for m in some) for some in every) for every in node.get("target", []))


def decided(node, question):
    """The decision of a node, and the name of the first rule that makes it."""
    if not target_holds(node, question):
        return None, None
    if "effect" in node:
        applies = all(holds(a, question) for a in node.get("when", []))
        return (node["effect"], node["rule"]) if applies else (None, None)
    answers = [decided(child, question) for child in node.get("rules", node.get("of", []))]
    effects = [effect for effect, _ in answers]
    combine = node["combine"]
    if combine == "first-applicable":
        effect = next((e for e in effects if e), None)
    else:
        first = "deny" if combine == "deny-overrides" else "permit"
        effect = first if first in effects else next((e for e in effects if e), None)
    return effect, next((rule for e, rule in answers if e == effect and e), None)


def box_of(text):
    """The least frame of a shape's text: all shapes here are points and boxes."""
    numbers = [int(n) for n in text.replace("(", " ").replace(")", " ").replace(",", " ").split()[1:]]
    return min(numbers[::2]), min(numbers[1::2]), max(numbers[::2]), max(numbers[1::2])


def meet(one, other):
    a, b = box_of(one), box_of(other)
    return a[0] <= b[2] and b[0] <= a[2] and a[1] <= b[3] and b[1] <= a[3]


class Model:
    """The features, the version, the policy and its edition: what the records of a trail change, one after another."""

    def __init__(self, subjects, document):
        self.subjects = subjects
        self.features = {}
        self.version = 0
        self.document = document
        self.edition = 1
        self.documents = {1: document}

    def ruled(self, subject, action, owner, kind, edition=None):
        who = self.subjects[subject]
        question = {"role": who["role"], "office": who["office"], "owner": owner, "class": kind, "action": action}
        document = self.document if edition is None else self.documents[edition]
        return decided(document["root"], question)

    def govern(self, document):
        """The reply to a document that is put in force."""
        self.edition += 1
        self.document = self.documents[self.edition] = document
        return f"edition {self.edition}"

    def explained(self, subject, asked, edition):
        """The reply to a question, by the document of an edition."""
        action, owner, kind = asked
        effect, rule = self.ruled(subject, action, owner, kind, edition)
        if effect == "permit":
            return f"permit rule {rule} edition {edition}"
        return f"denied rule {rule} edition {edition}" if effect == "deny" else f"denied none edition {edition}"

    def rows(self, subject, window):
        """The reply to a search."""
        found = [f for _, f in sorted(self.features.items())
                 if meet(f["shape"], window) and self.ruled(subject, "read", f["office"], f["class"])[0] == "permit"]
        return [f"rows {len(found)}"] + [f"{f['id']} {f['version']} {f['office']} {f['class']} {f['shape']}" for f in found]

    def fault(self, subject, change):
        """Why a change is turned away, or none."""
        there = self.features.get(change["id"])
        what = change["what"]
        if what == "add":
            effect, rule = self.ruled(subject, "add", self.subjects[subject]["office"], change["class"])
        elif there is None:
            return "absent"
        else:
            effect, rule = self.ruled(subject, what, there["office"], there["class"])
        if effect != "permit":
            return f"denied rule {rule}" if effect == "deny" else "denied none"
        if what == "add":
            return "exists" if there else None
        return None if there["version"] == change["version"] else f"stale {there['version']}"

    def commit(self, subject, changes):
        """The reply to a list, which is applied where each of its changes may be."""
        for place, change in enumerate(changes, 1):
            fault = self.fault(subject, change)
            if fault:
                return f"{fault} change {place}"
        self.version += 1
        for change in changes:
            if change["what"] == "delete":
                del self.features[change["id"]]
            elif change["what"] == "add":
                self.features[change["id"]] = {
                    "id": change["id"], "office": self.subjects[subject]["office"], "class": change["class"],
                    "shape": change["shape"], "version": self.version}
            else:
                self.features[change["id"]].update(shape=change["shape"], version=self.version)
        return f"applied {self.version}"


# -- clients -----------------------------------------------------------------------------------------------------------

class Client:
    """A session over a connection of its own, and what it asked and was answered of which the trail tells."""

    def __init__(self, path, name):
        self.name = name
        self.told = []
        self.explained = []
        self.known = 1
        self.other = {}
        self.staged = []
        self.socket = socket.socket(socket.AF_UNIX, socket.SOCK_STREAM)
        for _ in range(1000):
            try:
                self.socket.connect(path)
                break
            except OSError:
                time.sleep(0.01)
        self.lines = self.socket.makefile("r", encoding="ascii", newline="\n")

    def ask(self, line):
        self.socket.sendall(line.encode("ascii") + b"\n")
        reply = [self.lines.readline().rstrip("\n")]
        word, _, count = reply[0].partition(" ")
        if word in ("rows", "rolled"):
            reply += [self.lines.readline().rstrip("\n") for _ in range(int(count))]
        return reply

    def count(self, reply):
        self.other[reply[0]] = self.other.get(reply[0], 0) + 1

    def search(self, window):
        reply = self.ask(f"SEARCH {window}")
        if reply[0].startswith("rows "):
            self.told.append(("answered", window, reply))
        else:
            self.count(reply)

    def stage(self, line, change):
        if self.ask(line) == ["staged"]:
            self.staged.append(change)

    def commit(self):
        if not self.staged:
            return
        reply = self.ask("COMMIT")
        if reply[0] == "held" or reply[0].startswith(("error", "memory")):
            self.count(reply)
            self.ask("ABORT")
        else:
            kind = "applied" if reply[0].startswith("applied") else "refused"
            self.told.append((kind, self.staged, reply))
        self.staged = []

    def govern(self, document):
        reply = self.ask("POLICY " + json.dumps(document))
        if reply[0].startswith("edition "):
            self.told.append(("governed", document, reply))
            self.known = max(self.known, int(reply[0].split()[1]))
        else:
            self.count(reply)

    def explain(self, action, owner, kind, where):
        reply = self.ask(f"EXPLAIN {action} {owner} {kind} {where}")
        self.explained.append(((action, owner, kind), reply[0], self.known))
        if reply[0].rpartition(" ")[2].isdigit():
            self.known = max(self.known, int(reply[0].rpartition(" ")[2]))

    def close(self):
        self.ask("BYE")
        self.socket.close()


def point(rng):
    return f"POINT ({rng.randrange(40)} {rng.randrange(40)})"


def box(rng):
    x, y = rng.randrange(40), rng.randrange(40)
    w, h = rng.randrange(1, 15), rng.randrange(1, 15)
    return f"POLYGON (({x} {y}, {x + w} {y}, {x + w} {y + h}, {x} {y + h}, {x} {y}))"


def shape(rng):
    return box(rng) if rng.random() < 0.3 else point(rng)


def live(client, requests, seed, steward):
    """Sends so many random requests."""
    rng = random.Random(seed)
    versions = {}
    for _ in range(requests):
        draw = rng.random()
        if draw < 0.45:
            client.search(shape(rng))
            for row in client.told[-1][2][1:] if client.told and client.told[-1][0] == "answered" else []:
                words = row.split(" ", 2)
                versions[int(words[0])] = int(words[1])
        elif draw < 0.55:
            client.explain(rng.choice(ACTIONS), rng.choice(NAMES), rng.choice(CLASSES), shape(rng))
        elif draw < 0.57 and steward:
            client.govern(rng.choice(POLICIES))
        else:
            for _ in range(rng.choice([1, 1, 1, 2, 4])):
                change(client, rng, versions)
            client.commit()
    client.close()


def change(client, rng, versions):
    """Stages a random change."""
    number = rng.randrange(1, 60)
    draw = rng.random()
    if draw < 0.5 or number not in versions:
        kind, where = rng.choice(CLASSES), shape(rng)
        client.stage(f"ADD {number} {kind} {where}", {"what": "add", "id": number, "class": kind, "shape": where})
        return
    version = versions[number]
    if draw < 0.75:
        where = shape(rng)
        client.stage(f"RESHAPE {number} {version} {where}",
                     {"what": "reshape", "id": number, "version": version, "shape": where})
    else:
        client.stage(f"DELETE {number} {version}", {"what": "delete", "id": number, "version": version})


# -- the judge ---------------------------------------------------------------------------------------------------------

def judged(records, clients, model, seats):
    """Leads the model along the records, and compares each client's replies with what it gives. The first difference, or none."""
    told = {name: iter(client.told) for name, client in clients.items()}
    for record in records:
        name = record.get("subject") or seats[record["seat"]]
        asked = next(told[name], None)
        if asked is None or asked[0] != record["kind"]:
            return f"record {record['number']} of {name} is {record['kind']}, and {name} was told {asked}"
        kind, what, reply = asked
        if kind == "answered":
            due = model.rows(name, what)
        elif kind == "governed":
            due = [model.govern(what)]
        else:
            due = [model.commit(name, what)]
        if due != reply:
            return f"record {record['number']} of {name}: {reply} was answered to {what}, and {due} is due"
    for name, rest in told.items():
        left = next(rest, None)
        if left:
            return f"{name} was told {left}, and the trail does not tell of it"
    return explained_wrongly(clients, model)


def explained_wrongly(clients, model):
    """The first explanation that is not the one of its edition, or is of an edition that is too old, or none."""
    for name, client in clients.items():
        for asked, reply, known in client.explained:
            edition = reply.rpartition(" ")[2]
            if not edition.isdigit() or not known <= int(edition) <= model.edition:
                return f"{name}: {reply} was answered to {asked}, where edition {known} was known"
            due = model.explained(name, asked, int(edition))
            if due != reply:
                return f"{name}: {reply} was answered to {asked}, and {due} is due"
    return None


def seats_of(records, clients):
    """Whose each seat is. A seat that only put policies in force is the one steward's of whom no other record tells."""
    seats = {r["seat"]: r["subject"] for r in records if "subject" in r}
    for record in records:
        if record["seat"] not in seats:
            free = [n for n, c in clients.items() if n not in seats.values() and any(t[0] == "governed" for t in c.told)]
            seats[record["seat"]] = free[0]
    return seats


def run(arguments):
    rng = random.Random(arguments.seed)
    names = [f"client{i}" for i in range(arguments.clients)]
    subjects = [{"name": n, "office": rng.choice(NAMES), "role": "editor", "steward": i < 2} for i, n in enumerate(names)]
    subjects.append({"name": "chief", "office": "hq", "role": "chief", "steward": True})
    folder = tempfile.mkdtemp()
    config, path = os.path.join(folder, "config.json"), os.path.join(folder, "socket")
    with open(config, "w", encoding="ascii") as file:
        json.dump({"subjects": subjects, "policies": POLICIES[0]}, file)
    server = subprocess.Popen(
        [arguments.program, "serve", "--socket", path, "--config", config, "--connections", str(arguments.clients + 1),
         "--workers", str(arguments.workers)], stdout=subprocess.PIPE, text=True)
    assert server.stdout.readline() == f"listening {path}\n"
    clients = {name: Client(path, name) for name in names}
    begun = time.time()
    threads = [threading.Thread(target=serve_one, args=(clients[name], arguments, i)) for i, name in enumerate(names)]
    for thread in threads:
        thread.start()
    for thread in threads:
        thread.join()
    took = time.time() - begun
    chief = Client(path, "chief")
    chief.ask("HELLO chief")
    records = [json.loads(line) for line in chief.ask("ROLL")[1:]]
    chief.close()
    closed = server.stdout.read()
    status = server.wait()
    model = Model({s["name"]: s for s in subjects}, POLICIES[0])
    fault = judged(records, clients, model, seats_of(records, clients))
    if closed != f"closed {len(records)} records\n" or status != 0:
        fault = fault or f"the server ended with {closed!r}, status {status}, behind {len(records)} records"
    report(arguments, clients, records, took)
    if fault:
        print(fault)
        return 1
    print("every reply is the one that the trail's order gives")
    return 0


def serve_one(client, arguments, number):
    client.ask(f"HELLO {client.name}")
    live(client, arguments.requests, arguments.seed * 1000 + number, number < 2)


def report(arguments, clients, records, took):
    kinds = {}
    for record in records:
        kinds[record["kind"]] = kinds.get(record["kind"], 0) + 1
    others = {}
    for client in clients.values():
        for reply, count in client.other.items():
            others[reply] = others.get(reply, 0) + count
    print(f"{arguments.clients} clients, {arguments.requests} requests each, seed {arguments.seed}: {took:.1f} s")
    explained = sum(len(client.explained) for client in clients.values())
    print(f"{len(records)} records {kinds}; {explained} explained; answered without a record: {others}")


def main():
    parser = argparse.ArgumentParser(description=__doc__, formatter_class=argparse.RawDescriptionHelpFormatter)
    parser.add_argument("--clients", type=int, default=16)
    parser.add_argument("--requests", type=int, default=2000)
    parser.add_argument("--seed", type=int, default=1)
    parser.add_argument("--workers", type=int, default=16)
    parser.add_argument("program")
    sys.exit(run(parser.parse_args()))


if __name__ == "__main__":
    main()
