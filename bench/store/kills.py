#!/usr/bin/env python3
"""Kills a server with a store again and again, and compares what the store keeps with what the clients were answered.

A server runs over one folder for many lives. In each life some clients, each of them a subject of its own, send searches,
lists of changes and policies over connections of their own, and keep each reply that they have read whole. At a random moment
the server is killed by SIGKILL. A copy of the folder is then read by SQLite of Python, which no one here wrote:

  * the records' numbers run on without a gap, over all lives and volumes;
  * a slow plain model of the world is led along the records: each record has to be what the model answers there;
  * what the life's clients were answered, in their order, is the front of what the records tell of them: nothing that was
    answered is lost (by `--wait changes` the last searches and refusals may be). A client has at most one more record, the one whose reply
    did not arrive;
  * the tables of the features and of the policy are those of the model behind the last record: no list is there in part.

Then the next life begins with the same folder. Exits with 1 at the first difference, and leaves the folder.

    bench/store/kills.py [--kills 300] [--clients 16] [--seed 1] [--wait all] [--longest 0.5] PROGRAM
"""
import argparse
import glob
import importlib.util
import json
import os
import random
import shutil
import signal
import sqlite3
import subprocess
import sys
import tempfile
import threading
import time

HERE = os.path.dirname(os.path.abspath(__file__))


def histories():
    """The random clients and the plain model of bench/histories."""
    path = os.path.join(HERE, "..", "histories", "histories.py")
    spec = importlib.util.spec_from_file_location("histories", path)
    module = importlib.util.module_from_spec(spec)
    spec.loader.exec_module(module)
    return module


H = histories()


class Killed(Exception):
    """The server is gone: the reply that was asked for has not come whole."""


class Client(H.Client):
    """A client that knows a reply to be one only once its last line feed has come."""

    def whole_line(self):
        try:
            line = self.lines.readline()
        except OSError as fault:
            raise Killed() from fault
        if not line.endswith("\n"):
            raise Killed()
        return line[:-1]

    def ask(self, line):
        try:
            self.socket.sendall(line.encode("ascii") + b"\n")
        except OSError as fault:
            raise Killed() from fault
        reply = [self.whole_line()]
        word, _, count = reply[0].partition(" ")
        if word in ("rows", "rolled"):
            reply += [self.whole_line() for _ in range(int(count))]
        return reply


def live(path, name, seed, steward, told):
    """Sends random requests until the server is gone. `told` keeps what was answered."""
    client = None
    try:
        client = Client(path, name)
        client.told = told
        client.ask(f"HELLO {name}")
        while True:
            H.live(client, 1000, seed, steward)
            return
    except (Killed, OSError):
        pass
    finally:
        if client:
            client.socket.close()


# -- what the store keeps ------------------------------------------------------------------------------------------------

def unsigned(number):
    """An id or version of 64 bits from SQLite's signed integer."""
    return number + 2 ** 64 if number < 0 else number


def is_half_made(file):
    """Whether a file is a new database whose making was cut off: its first byte, which is written last, is none yet."""
    with open(file, "rb") as begun:
        return begun.read(16) == b"\0QLite format 3\0"


def kept(folder):
    """From a copy of the folder, the records of all volumes by number, features, version and policy of the last one, and how many volumes
    have not begun."""
    copy = tempfile.mkdtemp()
    try:
        records, state, begins = [], None, 0
        for file in sorted(glob.glob(os.path.join(folder, "*.db*"))):
            shutil.copy(file, copy)
        volumes = sorted(glob.glob(os.path.join(copy, "*.db")))
        for file in volumes:
            if file == volumes[-1] and is_half_made(file):
                begins += 1
                continue
            base = sqlite3.connect(file)
            fault = base.execute("PRAGMA integrity_check").fetchone()[0]
            if fault != "ok":
                raise SystemExit(f"{file}: {fault}")
            if not base.execute("SELECT count(*) FROM sqlite_master WHERE name = 'life'").fetchone()[0] \
                    or not base.execute("SELECT count(*) FROM life").fetchone()[0]:
                begins += 1
                base.close()
                continue
            records += base.execute("SELECT number, line FROM record ORDER BY number").fetchall()
            features = {unsigned(row[0]): row for row in base.execute("SELECT id, version, office, class, shape FROM feature")}
            state = features, base.execute("SELECT version, edition, document FROM policy").fetchall()
            base.close()
        return records, state, begins
    finally:
        shutil.rmtree(copy)


class Judge:
    """Follows the records from life to life."""

    def __init__(self, subjects, document, wait):
        self.model = H.Model(subjects, document)
        self.may_lose = ("answered", "refused") if wait == "changes" else ()
        self.known = 0
        self.more = 0
        self.lost = 0

    def due(self, record, name):
        """What the record has to be by the model, beside what it is; the model is led on."""
        kind = record["kind"]
        if kind == "governed":
            return self.model.govern(record["document"]), f"edition {record['edition']}"
        if kind == "answered":
            rows = self.model.rows(name, record["window"])
            return [int(row.split(" ", 1)[0]) for row in rows[1:]], record["ids"]
        reply = self.model.commit(name, record["changes"])
        return reply, said(record, reply)

    def life(self, records, told):
        """Compares the records since the last life with what this life's clients were answered. The first difference, or none."""
        fresh = [json.loads(line) for _, line in records[self.known:]]
        seats = {r["seat"]: r["subject"] for r in fresh if "subject" in r}
        left = {name: list(replies) for name, replies in told.items()}
        beyond = {}
        for record in fresh:
            name = seats.get(record["seat"]) or by_edition(record, left) or "a steward"
            due, is_so = self.due(record, name)
            if due != is_so:
                return f"record {record['number']} of {name} says {is_so}, and {due} is due"
            if left.get(name):
                kind, what, reply = left[name].pop(0)
                fault = unlike(record, kind, reply)
                if fault:
                    return f"record {record['number']} of {name}: {reply} was answered to {what}: {fault}"
            else:
                beyond[name] = beyond.get(name, 0) + 1
                if beyond[name] > 1 and name != "a steward":
                    return f"{name} has {beyond[name]} records that it was not answered"
        for name, rest in left.items():
            missed = next((reply for reply in rest if reply[0] not in self.may_lose), None)
            if missed:
                return f"{name} was answered {missed}, and no record is kept of it"
            self.lost += len(rest)
        self.more += sum(beyond.values())
        self.known = len(records)
        return None


def said(record, reply):
    """The reply that a list's record tells of. The name of a rule is not in a record: its number stands there, so the model's is
    taken where the record tells of a rule, too."""
    if record["kind"] == "applied":
        return f"applied {record['version']}"
    cause = record["cause"]
    if cause == "denied":
        word = reply.rsplit(" change ", 1)[0] if record["rule"] is not None and reply.startswith("denied rule") else "denied none"
    else:
        word = f"stale {record['current']}" if cause == "stale" else cause
    return f"{word} change {record['change']}"


def by_edition(record, left):
    """Whose a policy is, of a seat of which no other record tells: who was answered its edition."""
    for name, replies in left.items():
        if replies and replies[0][0] == "governed" and replies[0][2] == [f"edition {record['edition']}"]:
            return name
    return None


def unlike(record, kind, reply):
    """How a reply differs from its record, or none."""
    if record["kind"] != kind:
        return f"the record is {record['kind']}"
    if kind == "answered":
        ids = [int(row.split(" ", 1)[0]) for row in reply[1:]]
        return None if ids == record["ids"] else f"the record lists {record['ids']}"
    if kind == "governed":
        return None if reply == [f"edition {record['edition']}"] else f"the record has edition {record['edition']}"
    return None if said(record, reply[0]) == reply[0] else f"the record is {record}"


def state_fault(model, state):
    """How the tables differ from the model, or none."""
    features, policies = state
    due = {f["id"]: (f["version"], f["office"], f["class"], f["shape"]) for f in model.features.values()}
    found = {n: (unsigned(v), office, kind, shape) for n, (_, v, office, kind, shape) in features.items()}
    if {n: row[:3] for n, row in due.items()} != {n: row[:3] for n, row in found.items()}:
        return f"the table has {found}, and {due} is due"
    for n, row in due.items():
        if H.box_of(row[3]) != H.box_of(found[n][3]):
            return f"feature {n} has the shape {found[n][3]}, and {row[3]} is due"
    if len(policies) != 1:
        return f"there are {len(policies)} rows of the policy"
    version, edition, document = policies[0]
    if (unsigned(version), unsigned(edition)) != (model.version, model.edition):
        return f"version {version}, edition {edition}: {model.version} and {model.edition} are due"
    return None if json.loads(document) == model.document else f"the policy is {document}"


# -- lives -----------------------------------------------------------------------------------------------------------------

def one_life(arguments, config, folder, path, number, names):
    """Starts the server, lets the clients work, kills it. Returns what each client was answered, and how long the start took."""
    rng = random.Random(arguments.seed * 100_000 + number)
    if os.path.exists(path):
        os.remove(path)
    begun = time.time()
    log = open(os.path.join(os.path.dirname(path), "log"), "a", encoding="utf-8")
    server = subprocess.Popen(
        [arguments.program, "serve", "--socket", path, "--config", config, "--store", folder, "--connections", "1000",
         "--workers", str(arguments.clients), "--wait", arguments.wait], stdout=subprocess.PIPE, stderr=log, text=True)
    line = server.stdout.readline()
    if line != f"listening {path}\n":
        server.kill()
        raise SystemExit(f"life {number} did not begin: {line!r}, status {server.wait()}: see {log.name}")
    took = time.time() - begun
    told = {name: [] for name in names}
    threads = [threading.Thread(target=live, args=(path, n, rng.randrange(2 ** 30), i < 2, told[n])) for i, n in enumerate(names)]
    for thread in threads:
        thread.start()
    time.sleep(rng.random() * arguments.longest)
    server.send_signal(signal.SIGKILL)
    server.wait()
    for thread in threads:
        thread.join()
    log.close()
    return told, took


def main():
    parser = argparse.ArgumentParser(description=__doc__, formatter_class=argparse.RawDescriptionHelpFormatter)
    parser.add_argument("--kills", type=int, default=300)
    parser.add_argument("--clients", type=int, default=16)
    parser.add_argument("--seed", type=int, default=1)
    parser.add_argument("--wait", default="all")
    parser.add_argument("--longest", type=float, default=0.5)
    parser.add_argument("program")
    arguments = parser.parse_args()
    rng = random.Random(arguments.seed)
    names = [f"client{i}" for i in range(arguments.clients)]
    subjects = [{"name": n, "office": rng.choice(H.NAMES), "role": "editor", "steward": i < 2} for i, n in enumerate(names)]
    room = tempfile.mkdtemp()
    config, folder, path = (os.path.join(room, name) for name in ("config.json", "store", "socket"))
    os.mkdir(folder, 0o700)
    with open(config, "w", encoding="ascii") as file:
        json.dump({"subjects": subjects, "policies": H.POLICIES[0]}, file)
    judge = Judge({s["name"]: s for s in subjects}, H.POLICIES[0], arguments.wait)
    answered, slowest, half_made = 0, 0.0, 0
    for number in range(arguments.kills):
        told, took = one_life(arguments, config, folder, path, number, names)
        slowest = max(slowest, took)
        records, state, begins = kept(folder)
        half_made += begins
        numbers = [number for number, _ in records]
        fault = None if numbers == list(range(1, len(numbers) + 1)) else f"the numbers have a gap: {numbers[:3]}..{numbers[-3:]}"
        fault = fault or judge.life(records, told) or state_fault(judge.model, state)
        answered += sum(len(replies) for replies in told.values())
        if fault:
            print(f"life {number + 1}: {fault}; the folder is {room}")
            sys.exit(1)
    print(f"{arguments.kills} kills, {arguments.clients} clients, seed {arguments.seed}, --wait {arguments.wait}: of {answered} answers "
          f"{judge.lost} were lost, all of them searches or refusals; {judge.more} records more are kept, whose replies did not arrive; "
          f"{len(records)} records in {len(glob.glob(os.path.join(folder, '*.db')))} volumes, of which one was half made at {half_made} kills; "
          f"the slowest start took {slowest:.2f} s")
    shutil.rmtree(room)


if __name__ == "__main__":
    main()
