#!/usr/bin/env python3
"""Tells what a server's memory is made of, and how long a roll keeps other sessions waiting.

Point features in random places are added by lists of sixteen; then come searches of no row, then searches of about ten. After each of
the three the trail is rolled out, while another client searches for a point every millisecond.

    bench/serve_bench/memory_bench.py [--features 100000] [--searches 500000] PROGRAM
"""
import argparse
import os
import random
import subprocess
import sys
import tempfile
import threading
import time

sys.dont_write_bytecode = True
sys.path.insert(0, os.path.join(os.path.dirname(os.path.abspath(__file__)), "..", "..", "examples"))
from client import Session

SIDE = 1_000_000


def memory(server):
    """The resident bytes of a process."""
    with open(f"/proc/{server.pid}/statm") as sizes:
        return int(sizes.read().split()[1]) * os.sysconf("SC_PAGE_SIZE")


def ask_all(session, lines, size):
    """Sends lines in batches of this size, and returns how many rows were answered."""
    rows = 0
    for at in range(0, len(lines), size):
        session.send(*lines[at:at + size])
        for line in lines[at:at + size]:
            reply = session.receive()
            if not reply[0].startswith(("staged", "applied", "rows")):
                sys.exit(f"{line}: {reply[0]}")
            rows += len(reply) - 1
    return rows


class Beside(threading.Thread):
    """A client that searches for a point every millisecond, until `done` is set; the longest wait is kept."""

    def __init__(self, path):
        super().__init__()
        self.session, self.done, self.longest = Session(path), threading.Event(), 0.0
        self.session.ask("HELLO south")

    def run(self):
        while not self.done.wait(0.001):
            begun = time.monotonic()
            self.session.ask("SEARCH POINT (-1 -1)")
            self.longest = max(self.longest, time.monotonic() - begun)
        self.session.ask("BYE")


def roll(server, path, session):
    """Rolls the trail out, and tells what it has, how long it took, and how long the other client waited."""
    beside, before = Beside(path), memory(server)
    beside.start()
    time.sleep(0.2)
    begun = time.monotonic()
    session.send("ROLL")
    first = session.line()
    began_to_come = time.monotonic() - begun
    size = sum(len(session.line()) + 1 for _ in range(int(first.split()[1])))
    took = time.monotonic() - begun
    beside.done.set()
    beside.join()
    print(f"  {first}: {size / 2**20:.1f} MiB of lines; first line after {began_to_come:.2f} s, last after {took:.2f} s; "
          f"the longest search beside it {beside.longest:.2f} s; memory {before / 2**20:.1f} MiB before, {memory(server) / 2**20:.1f} after")


def main():
    words = argparse.ArgumentParser(description=__doc__, formatter_class=argparse.RawDescriptionHelpFormatter)
    words.add_argument("--features", type=int, default=100_000)
    words.add_argument("--searches", type=int, default=500_000)
    words.add_argument("program")
    asked = words.parse_args()
    chance = random.Random(1)
    with tempfile.TemporaryDirectory() as folder:
        path = os.path.join(folder, "socket")
        server = subprocess.Popen([asked.program, "serve", "--socket", path, "--connections", "4"], stdout=subprocess.PIPE, text=True)
        server.stdout.readline()
        print(f"a server without features: {memory(server) / 2**20:.1f} MiB")
        session = Session(path)
        session.ask("HELLO chief")
        before = memory(server)
        for start in range(1, asked.features + 1, 16):
            adds = [f"ADD {number} mast POINT ({chance.randint(0, SIDE)} {chance.randint(0, SIDE)})"
                    for number in range(start, min(start + 16, asked.features + 1))]
            ask_all(session, adds + ["COMMIT"], 17)
        print(f"a feature, with the record of its list: {(memory(server) - before) / asked.features:.0f} bytes")
        roll(server, path, session)
        # As many of a window beside all features, and of one that takes in ten on the average.
        side = round(SIDE * (10 / asked.features) ** 0.5)
        for low in (-SIDE - side, 0):
            before = memory(server)
            corners = [(low + chance.randint(0, SIDE - side), chance.randint(0, SIDE - side)) for _ in range(asked.searches)]
            lines = [f"SEARCH POLYGON (({x} {y}, {x + side} {y}, {x + side} {y + side}, {x} {y + side}, {x} {y}))" for x, y in corners]
            begun = time.monotonic()
            rows = ask_all(session, lines, 16)
            print(f"{asked.searches} searches of {rows} rows: {(memory(server) - before) / asked.searches:.0f} bytes a search, "
                  f"{asked.searches / (time.monotonic() - begun):.0f} a second")
            roll(server, path, session)
        session.ask("BYE")
        server.kill()


main()
