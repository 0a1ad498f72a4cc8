#!/usr/bin/env python3
"""Fills the disk under a server with a store, makes room, and looks whether anything that was answered is lost.

    bench/store/full_disk.py [--clients 4] [--seed 1] PROGRAM        as root: it mounts a tmpfs of 3 MB in a temporary folder

Clients add features by lists of 1 to 16, until no reply comes any more. Then the server has to be alive, to have warned, and to leave
no reply for three seconds; a search by another session waits too. Room is made, and each reply that was due has to come, and
more. Then the disk is filled again, and the server is killed on it; what a start on the full disk says is printed. Room is made once
more. Behind each start everything that was answered is there, with its version, and each list is there whole or not at all, and
`store check` says that the store is right.
"""
import argparse
import os
import random
import shutil
import signal
import socket
import subprocess
import tempfile
import threading
import time

import parts

WARNING = "the store takes nothing for now: replies wait"


class Adder(threading.Thread):
    """Adds lists of features until the server is gone, and keeps what it was answered, and what is not answered yet."""

    def __init__(self, path, number, seed):
        super().__init__(daemon=True)
        self.path, self.next, self.chance = path, number * 1_000_000 + 1, random.Random(seed)
        self.told, self.due, self.last, self.fault = {}, [], time.monotonic(), None

    def run(self):
        try:
            session = parts.Session(self.path)
            while True:
                self.due = list(range(self.next, self.next + self.chance.randint(1, 16)))
                self.next += len(self.due)
                lines = [f"ADD {number} mast {parts.point(self.chance)}" for number in self.due] + ["COMMIT"]
                replies = session.ask("\n".join(lines), len(lines))
                if replies[:-1] != ["staged"] * len(self.due) or not replies[-1].startswith("applied "):
                    self.fault = replies[-1]
                    return
                version = int(replies[-1].split()[1])
                self.told.update((number, version) for number in self.due)
                self.due, self.last = [], time.monotonic()
        except parts.Gone:
            pass


class Run:
    """One disk, and what was answered about it."""

    def __init__(self, arguments, room):
        self.arguments, self.room = arguments, room
        self.program = os.path.abspath(arguments.program)
        self.disk = os.path.join(room, "disk")
        self.store = os.path.join(self.disk, "store")
        self.path = os.path.join(room, "socket")
        self.log = os.path.join(room, "log")
        self.told, self.doubtful, self.server, self.adders, self.life = {}, [], None, [], 0
        os.mkdir(self.disk)
        subprocess.run(["mount", "-t", "tmpfs", "-o", "size=3m", "tmpfs", self.disk], check=True)
        os.mkdir(self.store, 0o700)

    def size(self, megabytes):
        subprocess.run(["mount", "-o", f"remount,size={megabytes}m", self.disk], check=True)

    def start(self):
        """Starts a server. Whether it serves."""
        with open(self.log, "w", encoding="utf-8") as log:
            self.server, _ = parts.serve(self.program, self.path, "--store", self.store, "--connections", "100", "--workers", "16", log=log)
        return self.server is not None

    def said(self):
        with open(self.log, encoding="utf-8") as log:
            return log.read()

    def add(self):
        """Has clients add until no reply comes any more."""
        self.life += 1
        self.adders = [Adder(self.path, self.life * 100 + i, self.arguments.seed * 100 + self.life * 10 + i) for i in range(self.arguments.clients)]
        for adder in self.adders:
            adder.start()
        self.await_silence()

    def await_silence(self):
        end = time.monotonic() + 300
        while WARNING not in self.said() or any(time.monotonic() - adder.last < 3 for adder in self.adders):
            assert time.monotonic() < end, "the disk is not full after five minutes"
            assert self.server.poll() is None, f"the server has ended: {self.said()}"
            time.sleep(0.05)
        faults = [adder.fault for adder in self.adders if adder.fault]
        assert not faults, faults
        print(f"full: {sum(len(adder.told) for adder in self.adders)} features answered in this life, {self.used()} KiB used, {self.said().count(WARNING)} warning")

    def used(self):
        return sum(os.path.getsize(os.path.join(self.store, name)) for name in os.listdir(self.store)) // 1024

    def go_on(self):
        """Every client gets the reply that was due, and more."""
        before = [(adder.due[0], len(adder.told)) for adder in self.adders]
        begun = time.monotonic()
        while any(due not in adder.told for adder, (due, _) in zip(self.adders, before)):
            assert time.monotonic() < begun + 30, "replies that were due have not come"
            time.sleep(0.01)
        print(f"room: the replies that were due came within {time.monotonic() - begun:.2f} s")

    def kill(self):
        self.server.send_signal(signal.SIGKILL)
        self.server.wait()
        for adder in self.adders:
            adder.join()
            self.told.update(adder.told)
            if adder.due:
                self.doubtful.append(adder.due)
        self.adders = []

    def compare(self):
        """What was answered is there, and each other list whole or not at all."""
        found = parts.Session(self.path).rows(parts.EVERYTHING)
        lost = {number: version for number, version in self.told.items() if found.get(number) != version}
        assert not lost, f"answered, and not there: {lost}"
        more = 0
        for ids in self.doubtful:
            there = [number for number in ids if number in found]
            assert there in ([], ids), f"a list is there in part: {there} of {ids}"
            more += len(there)
        assert len(found) == len(self.told) + more, f"{len(found)} features, {len(self.told)} were answered, {more} are of lists in doubt"
        print(f"compared: {len(found)} features, each that was answered is there; {more} of lists whose reply did not come")

    def check(self):
        told = subprocess.run([self.program, "store", "check", self.store], capture_output=True, text=True)
        assert told.returncode == 0, told.stderr
        print(f"store check: {told.stdout.strip()}")


def tried(run):
    assert run.start(), run.said()
    run.add()
    with socket.socket(socket.AF_UNIX, socket.SOCK_STREAM) as other:
        other.settimeout(3)
        other.connect(run.path)
        other.sendall(b"HELLO north\nSEARCH POINT (1 1)\n")
        try:
            raise AssertionError(f"a search on a full disk is answered {other.recv(100)}")
        except TimeoutError:
            print("full: a search beside it waits")
    run.size(7)
    run.go_on()
    run.await_silence()
    run.kill()
    if run.start():
        print("a start on the full disk serves")
        run.compare()
    else:
        print(f"a start on the full disk: {run.said().strip()}")
    if run.server:
        run.kill()
    run.size(32)
    run.check()
    assert run.start(), run.said()
    run.compare()
    run.kill()
    run.check()


def main():
    parser = argparse.ArgumentParser(description=__doc__, formatter_class=argparse.RawDescriptionHelpFormatter)
    parser.add_argument("--clients", type=int, default=4)
    parser.add_argument("--seed", type=int, default=1)
    parser.add_argument("program")
    arguments = parser.parse_args()
    room = tempfile.mkdtemp()
    run = None
    try:
        run = Run(arguments, room)
        tried(run)
    finally:
        if run and run.server:
            run.server.kill()
            run.server.wait()
        subprocess.run(["umount", os.path.join(room, "disk")], check=False)
        shutil.rmtree(room, ignore_errors=True)


if __name__ == "__main__":
    main()
