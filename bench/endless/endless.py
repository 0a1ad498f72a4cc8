#!/usr/bin/env python3
"""One life of a server without end, by clients that know each reply beforehand.

    bench/endless/endless.py [--seconds 120] [--clients 16] [--silent 8] [--workers 32] [--store DIR] [--features 10000] PROGRAM

Clients change and search features of their own without pause; one more client connects anew for each search; the silent ones stage a list,
begin a line, and say nothing until the end, when the line ends and the list is applied. Prints each tenth of the time how many records and
connections there were, and what the server has in memory. Exits with 1 where a reply is another one than it should be, where the server
ends by itself, where `closed R records` is not the number of answered searches and lists, or where the memory at the end is more than a tenth
above that after the second tenth.
"""
import argparse
import os
import random
import socket
import subprocess
import sys
import tempfile
import threading
import time

NAMES = ["north", "south", "chief"]
OFFICES = {"north": "north", "south": "south", "chief": "hq"}


class Talk:
    """A session: lines go out, replies come back."""

    def __init__(self, path):
        for _ in range(100):
            try:
                self.stream = socket.socket(socket.AF_UNIX)
                self.stream.connect(path)
                break
            except OSError:
                time.sleep(0.05)
        self.replies = self.stream.makefile("rb")

    def send(self, text):
        self.stream.sendall(text.encode())

    def line(self):
        return self.replies.readline().decode().rstrip("\n")

    def ask(self, text):
        self.send(text + "\n")
        return self.line()

    def rows(self, window):
        first = self.ask("SEARCH " + window)
        if not first.startswith("rows "):
            raise ValueError(first)
        return [self.line() for _ in range(int(first[5:]))]


class Count:
    """What was answered, over all threads."""

    def __init__(self):
        self.lock = threading.Lock()
        self.records = 0
        self.connections = 0
        self.wrong = []

    def add(self, records=0, connections=0):
        with self.lock:
            self.records += records
            self.connections += connections

    def fault(self, text):
        with self.lock:
            self.wrong.append(text)


def wanted(told, expected):
    if told != expected:
        raise ValueError(f"{told!r} in place of {expected!r}")


def work(path, number, count, until, seed):
    """A client whose features lie in a strip of their own."""
    chance = random.Random(seed + number)
    name = NAMES[number % len(NAMES)]
    talk = Talk(path)
    count.add(connections=1)
    wanted(talk.ask("HELLO " + name), "hello " + name)
    first = 1_000_000 + number * 1_000
    mine = {}
    while time.time() < until:
        if chance.random() < 0.2 or not mine:
            identity = first + chance.randrange(1_000)
            x, y = chance.randrange(1_000), number * 10 + 1_000
            if identity in mine:
                version = mine[identity][0]
                wanted(talk.ask(f"RESHAPE {identity} {version} POINT ({x} {y})"), "staged")
            else:
                wanted(talk.ask(f"ADD {identity} mast POINT ({x} {y})"), "staged")
            told = talk.ask("COMMIT")
            count.add(records=1)
            if not told.startswith("applied "):
                raise ValueError(told)
            mine[identity] = (int(told[8:]), x, y)
        else:
            low = chance.randrange(1_000)
            high = low + chance.randrange(200)
            y = number * 10 + 1_000
            window = f"POLYGON (({low} {y - 1}, {high + 1} {y - 1}, {high + 1} {y + 1}, {low} {y + 1}, {low} {y - 1}))"
            expected = [f"{i} {v} {OFFICES[name]} mast POINT ({x} {yy})" for i, (v, x, yy) in sorted(mine.items()) if low <= x <= high + 1]
            told = talk.rows(window)
            count.add(records=1)
            wanted(told, expected)
    wanted(talk.ask("BYE"), "bye")


def come_and_go(path, count, until):
    """A connection for each search."""
    turn = 0
    while time.time() < until:
        name = NAMES[turn % len(NAMES)]
        turn += 1
        talk = Talk(path)
        wanted(talk.ask("HELLO " + name), "hello " + name)
        wanted(talk.ask("SEARCH POINT (-9999 -9999)"), "rows 0")
        count.add(records=1, connections=1)
        wanted(talk.ask("BYE"), "bye")
        talk.stream.close()


def be_silent(path, number, count, until):
    """A staged list and half a line, for the whole time."""
    talk = Talk(path)
    count.add(connections=1)
    name = NAMES[number % len(NAMES)]
    wanted(talk.ask("HELLO " + name), "hello " + name)
    wanted(talk.ask(f"ADD {900_000 + number} mast POINT ({number} 5)"), "staged")
    talk.send("COM")
    while time.time() < until:
        time.sleep(0.2)
    told = talk.ask("MIT")
    count.add(records=1)
    if not told.startswith("applied "):
        raise ValueError(told)
    wanted(talk.ask("BYE"), "bye")


def fill(path, features, count):
    """Features that nobody changes."""
    talk = Talk(path)
    count.add(connections=1)
    wanted(talk.ask("HELLO north"), "hello north")
    for first in range(1, features + 1, 16):
        last = min(first + 16, features + 1)
        lines = [f"ADD {i} road POINT ({i % 10_000 + 20_000} {i // 10_000})" for i in range(first, last)]
        talk.send("\n".join(lines) + "\nCOMMIT\n")
        for _ in lines:
            wanted(talk.line(), "staged")
        told = talk.line()
        count.add(records=1)
        if not told.startswith("applied "):
            raise ValueError(told)
    wanted(talk.ask("BYE"), "bye")


def memory(process):
    with open(f"/proc/{process.pid}/status", encoding="ascii") as file:
        return next(int(line.split()[1]) for line in file if line.startswith("VmRSS:")) // 1_024


def guarded(count, call, *words):
    def run():
        try:
            call(*words)
        except (ValueError, OSError) as error:
            count.fault(f"{call.__name__} {words[1:2]}: {error}")
    thread = threading.Thread(target=run)
    thread.start()
    return thread


def main():
    options = argparse.ArgumentParser()
    options.add_argument("program")
    options.add_argument("--seconds", type=int, default=120)
    options.add_argument("--clients", type=int, default=16)
    options.add_argument("--silent", type=int, default=8)
    options.add_argument("--workers", type=int, default=32)
    options.add_argument("--features", type=int, default=10_000)
    options.add_argument("--store")
    options.add_argument("--seed", type=int, default=1)
    given = options.parse_args()
    folder = tempfile.mkdtemp()
    path = os.path.join(folder, "socket")
    words = [given.program, "serve", "--socket", path, "--workers", str(given.workers), "--until-stdin-ends"]
    if given.store:
        words += ["--store", given.store]
    server = subprocess.Popen(words, stdin=subprocess.PIPE, stdout=subprocess.PIPE)
    wanted(server.stdout.readline().decode().strip(), "listening " + path)
    count = Count()
    fill(path, given.features, count)
    start = time.time()
    until = start + given.seconds
    threads = [guarded(count, work, path, number, count, until, given.seed) for number in range(given.clients)]
    threads += [guarded(count, be_silent, path, number, count, until) for number in range(given.silent)]
    threads.append(guarded(count, come_and_go, path, count, until))
    early = 0
    for tenth in range(1, 11):
        time.sleep(max(0, start + given.seconds * tenth / 10 - time.time()))
        if server.poll() is not None:
            break
        now = memory(server)
        early = now if tenth == 2 else early
        print(f"{tenth * 10:3} %: {count.records:9} records, {count.connections:8} connections, {now:5} MiB", flush=True)
    for thread in threads:
        thread.join()
    late = memory(server) if server.poll() is None else 0
    server.stdin.close()
    told = server.stdout.readline().decode().strip()
    status = server.wait(timeout=60)
    print(f"{told}; status {status}; {count.records} were answered; {late} MiB at the end, {early} MiB behind the second tenth")
    for text in count.wrong[:20]:
        print(text)
    good = not count.wrong and status == 0 and told == f"closed {count.records} records" and late <= early * 1.1
    sys.exit(0 if good else 1)


if __name__ == "__main__":
    main()
