#!/usr/bin/env python3
"""Has each call of the system that concerns a store fail in turn, and looks at what is left.

    bench/store/refused_calls.py [--jobs 2] PROGRAM        needs strace, which makes the calls fail

A script that begins a store, one that goes on with it, and a server: in each the first open, read, write, change of length, sync,
removal or look at a file in the store's folder fails, then the second one, and so on until none is left. A write fails once more for
want of room. Then

  * the program has ended by itself, with status 0, or with 1 and a line `landmap: CODE`; of a server the client's connection has ended;
  * what it has answered is the front of what it answers when no call fails, and every list, search and policy of it is in the store,
    and at most one group more;
  * `store check` says that the store is right, the features are those that the records led to, and a further script goes on with it.
"""
import argparse
import collections
import concurrent.futures
import os
import re
import shutil
import subprocess
import tempfile
import time

import parts

CALLS = [("openat", "EIO"), ("openat", "EMFILE"), ("pread64", "EIO"), ("pwrite64", "EIO"), ("pwrite64", "ENOSPC"), ("ftruncate", "EIO"),
         ("fsync", "EIO"), ("fdatasync", "EIO"), ("unlink", "EIO"), ("statx", "EIO"), ("flock", "ENOLCK"), ("getdents64", "EIO"), ("fchmod", "EPERM")]
FURTHER = ["HELLO chief", "ADD 900 mast POINT (1 2)", "COMMIT", "DELETE 10 3", "COMMIT", "SEARCH POINT (1 2)"]


def numbered(lines):
    """How many of these replies tell of a record."""
    return sum(line.split()[0] in ("applied", "edition", "stale", "denied", "exists", "absent", "rows") for line in lines)


def script(program, folder, lines, before=()):
    """Runs a script over a store. Its status, its replies without their label, and its complaint."""
    text = "".join(f"n: {line}\n" for line in lines)
    told = subprocess.run([*before, program, "script", "--store", folder, "-"], input=text, capture_output=True, text=True, timeout=120)
    replies = [line.removeprefix("n: ") for line in told.stdout.split("\n")[:-1]]
    return told.returncode, replies, told.stderr


def served(program, folder, lines, before=()):
    """The same by a server, which serves one client."""
    path = os.path.join(os.path.dirname(folder), "socket")
    with open(os.path.join(os.path.dirname(folder), "log"), "w+", encoding="utf-8") as log:
        server, _ = parts.serve(program, path, "--store", folder, "--connections", "1", log=log, before=before)
        replies = []
        if server is None:
            log.seek(0)
            return 1, [], log.read()
        try:
            session = parts.Session(path, "chief", patience=60)
            replies.append("hello chief")
            for line in lines[1:]:
                replies += session.ask(line, 1)
                if replies[-1].startswith("rows "):
                    replies += [session.hear() for _ in range(int(replies[-1].split()[1]))]
            session.ask("BYE", 1)
        except parts.Gone:
            pass
        session.close()
        status = server.wait(timeout=60)
        log.seek(0)
        return status, replies, log.read()


class Way:
    """One way to run: a script or a server, over a new store or one that is there."""

    def __init__(self, name, program, run, lines, begun):
        self.name, self.program, self.run, self.lines, self.begun = name, program, run, lines, begun
        room = tempfile.mkdtemp()
        folder = self.store(room)
        self.before = len(self.records(folder)) if begun else 0
        status, self.due, complaint = run(program, folder, lines)
        assert status == 0, complaint
        self.all = self.records(folder)
        shutil.rmtree(room)

    def store(self, room):
        folder = os.path.join(room, "store")
        os.mkdir(folder, 0o700)
        if self.begun:
            assert script(self.program, folder, parts.LINES)[0] == 0
        return folder

    def records(self, folder):
        return parts.text_of(self.program, folder)[0].decode("ascii").splitlines()

    def one(self, call, error, number):
        """The so manyth call fails: what came of it, and a fault or none. Nothing where no such call is left."""
        room = tempfile.mkdtemp()
        try:
            folder, trace = self.store(room), os.path.join(room, "trace")
            before = ["strace", "-f", "-y", "-qq", "-o", trace, "-e", f"trace={call}", "-e", f"inject={call}:error={error}:when={number}"]
            began = time.monotonic()
            status, replies, complaint = self.run(self.program, folder, self.lines, before)
            with open(trace, encoding="utf-8", errors="replace") as file:
                hit = next((line for line in file if "(INJECTED)" in line), None)
            if hit is None:
                return None
            if folder not in hit:
                return "elsewhere", None
            return self.judged(folder, status, replies, complaint), self.fault(folder, status, replies, complaint, time.monotonic() - began)
        except subprocess.TimeoutExpired:
            return "fault", "it did not end"
        finally:
            shutil.rmtree(room)

    def judged(self, folder, status, replies, complaint):
        code = re.search(r"landmap: (Q\d|[A-Z]\d+|cannot \w+)", complaint)
        return f"status {status}" + (f", {code[1]}" if status and code else "")

    def fault(self, folder, status, replies, complaint, took):
        if status not in (0, 1) or status == 1 and "landmap: " not in complaint:
            return f"status {status}: {complaint.strip()}"
        if replies != self.due[:len(replies)] or status == 0 and replies != self.due:
            return f"it answers {replies}, and {self.due} is due"
        check = subprocess.run([self.program, "store", "check", folder], capture_output=True, text=True)
        if check.returncode != 0:
            return f"the store is not right: {check.stderr.strip()}"
        records, features = (text.decode("ascii").splitlines() for text in parts.text_of(self.program, folder))
        answered = self.before + numbered(line for line in replies if not line[0].isdigit())
        if records != self.all[:len(records)] or not answered <= len(records) <= answered + 1:
            return f"{len(records)} records are kept, and {answered} were answered"
        found = dict(tuple(int(word) for word in line.split(",", 2)[:2]) for line in features)
        if found != parts.features_behind(records):
            return f"the features are {found}, and {parts.features_behind(records)} is due"
        further = script(self.program, folder, ["HELLO chief", "ADD 901 mast POINT (1 2)", "COMMIT"])
        return None if further[0] == 0 and further[1][-1].startswith("applied ") else f"a further script: {further}"


def tried(way, pool):
    """Every call of a way. How many faults."""
    counts, faults = collections.Counter(), 0
    for call, error in CALLS:
        number, more = 1, True
        while more:
            some = list(range(number, number + 8))
            for at, found in zip(some, pool.map(lambda at: way.one(call, error, at), some)):
                if found is None:
                    more = False
                    continue
                counts[call, error, found[0]] += 1
                if found[1]:
                    faults += 1
                    print(f"{way.name}, {call} {at} fails by {error}: {found[1]}", flush=True)
            number += 8
    print(f"{way.name}:")
    for (call, error, word), count in counts.items():
        print(f"  {call:10} {error:7} {count:4} times: {word}", flush=True)
    return faults


def main():
    parser = argparse.ArgumentParser(description=__doc__, formatter_class=argparse.RawDescriptionHelpFormatter)
    parser.add_argument("--jobs", type=int, default=2)
    parser.add_argument("--ways", default="script,again,server", help="which of script, again, server, server again")
    parser.add_argument("program")
    arguments = parser.parse_args()
    program = os.path.abspath(arguments.program)
    ways = {"script": ("a script that begins a store", script, parts.LINES, False), "again": ("a script that goes on", script, FURTHER, True),
            "server": ("a server that begins a store", served, parts.LINES, False), "server again": ("a server that goes on", served, FURTHER, True)}
    faults = 0
    with concurrent.futures.ThreadPoolExecutor(arguments.jobs) as pool:
        for name in arguments.ways.split(","):
            words, run, lines, begun = ways[name]
            faults += tried(Way(words, program, run, lines, begun), pool)
    raise SystemExit(1 if faults else 0)


if __name__ == "__main__":
    main()
