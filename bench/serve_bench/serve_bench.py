#!/usr/bin/env python3
"""Times `landmap serve` beside a server in C that answers each line with as many bytes, in the same run.

    bench/serve_bench/serve_bench.py [--features 100000] [--seconds 2] [--workers 16] [--clients 1,4,16] [PROGRAM]

Each row: requests a second, the 50th and the 99th percentile in microseconds, and both 50th percentiles as a ratio to the
answering server's. A last part tells the processor time of an idle server, and memory before and after.
"""
import argparse
import math
import os
import random
import socket
import subprocess
import tempfile
import time

TOP = os.path.dirname(os.path.dirname(os.path.dirname(os.path.abspath(__file__))))
HERE = os.path.dirname(os.path.abspath(__file__))
SIZE = 10_000_000
# How many features a server takes where no option says more.
USUAL = 100_000


def square(chance, part):
    """A square that takes in this part of the whole."""
    side = round(2 * SIZE * math.sqrt(part))
    x, y = chance.randint(-SIZE, SIZE - side), chance.randint(-SIZE, SIZE - side)
    return f"POLYGON (({x} {y}, {x + side} {y}, {x + side} {y + side}, {x} {y + side}, {x} {y}))"


class Session:
    def __init__(self, path, name):
        self.socket = socket.socket(socket.AF_UNIX, socket.SOCK_STREAM)
        self.socket.connect(path)
        self.lines = self.socket.makefile("r", encoding="ascii")
        assert self.ask(f"HELLO {name}", 1) == [f"hello {name}"]

    def ask(self, text, replies):
        self.socket.sendall((text + "\n").encode("ascii"))
        return [self.lines.readline().rstrip("\n") for _ in range(replies)]


def load(path, features):
    """Adds so many point features in random places, by lists of sixteen."""
    chance = random.Random(1)
    session = Session(path, "north")
    begun = time.time()
    for start in range(1, features + 1, 16):
        lines = [f"ADD {number} mast POINT ({chance.randint(-SIZE, SIZE)} {chance.randint(-SIZE, SIZE)})"
                 for number in range(start, min(start + 16, features + 1))]
        replies = session.ask("\n".join(lines + ["COMMIT"]), len(lines) + 1)
        assert replies[-1].startswith("applied "), replies[-1]
    print(f"{features} features loaded by lists of sixteen in {time.time() - begun:.1f} s")
    session.ask("BYE", 1)


def cases(features, clients, folder):
    """Each case: its name, the file of its lines, how many clients, how many lines a batch."""
    chance = random.Random(2)
    made = {
        "empty window": [f"SEARCH POINT ({chance.randint(-SIZE, SIZE)} {chance.randint(-SIZE, SIZE)})" for _ in range(5000)],
        "ten rows": [f"SEARCH {square(chance, 10 / features)}" for _ in range(5000)],
        "0.1 %": [f"SEARCH {square(chance, 0.001)}" for _ in range(1000)],
        "1 %": [f"SEARCH {square(chance, 0.01)}" for _ in range(300)],
    }
    for name, lines in made.items():
        file = os.path.join(folder, name.replace(" ", "_").replace("%", "percent"))
        with open(file, "w", encoding="ascii") as out:
            out.write("\n".join(lines) + "\n")
        for count in clients:
            yield name, file, count, 1
    yield "empty window", os.path.join(folder, "empty_window"), 1, 16


def asked(path, count, seconds, batch, file, hello):
    words = [os.path.join(WORK, "asker"), path, str(count), str(seconds), str(batch), file] + hello
    out = subprocess.run(words, stdout=subprocess.PIPE, text=True, check=True).stdout.split()
    return [float(word) for word in out]


def answered(count, seconds, batch, file, size):
    """The same, asked of the answering server."""
    path = os.path.join(WORK, "answerer.sock")
    if os.path.exists(path):
        os.remove(path)
    server = subprocess.Popen([os.path.join(WORK, "answerer"), path, str(max(1, round(size)))], stdout=subprocess.PIPE, text=True)
    server.stdout.readline()
    times = asked(path, count, seconds, batch, file, [])
    server.kill()
    server.wait()
    return times


def ticks(process):
    """Processor time in milliseconds, and memory in KiB."""
    with open(f"/proc/{process.pid}/stat", encoding="ascii") as file:
        words = file.read().rsplit(") ", 1)[1].split()
    with open(f"/proc/{process.pid}/status", encoding="ascii") as file:
        memory = next(int(line.split()[1]) for line in file if line.startswith("VmRSS"))
    return (int(words[11]) + int(words[12])) * 10, memory


def commits(path, by, count):
    """Microseconds a list of so many additions, and then of their deletions."""
    chance = random.Random(by)
    session = Session(path, "north")
    begun = time.time()
    for at in range(count):
        lines = [f"ADD {10_000_000 * by + at * by + i} mast POINT ({chance.randint(-SIZE, SIZE)} {chance.randint(-SIZE, SIZE)})"
                 for i in range(by)]
        reply = session.ask("\n".join(lines + ["COMMIT"]), by + 1)[-1]
        assert reply.startswith("applied "), reply
    took = (time.time() - begun) / count * 1e6
    session.ask("BYE", 1)
    print(f"commit of {by}: {took:.1f} us, as one request with its ADD lines")


def main():
    global WORK
    parser = argparse.ArgumentParser(description=__doc__, formatter_class=argparse.RawDescriptionHelpFormatter)
    parser.add_argument("--features", type=int, default=100_000)
    parser.add_argument("--seconds", type=float, default=2)
    parser.add_argument("--workers", type=int, default=16)
    parser.add_argument("--clients", default="1,4,16")
    parser.add_argument("program", nargs="?", default=os.path.join(TOP, "crates", "landmap", "out", "landmap"))
    arguments = parser.parse_args()
    WORK = tempfile.mkdtemp()
    for name in ("answerer", "asker"):
        subprocess.run(["cc", "-O2", "-pthread", "-o", os.path.join(WORK, name), os.path.join(HERE, name + ".c")], check=True)
    path = os.path.join(WORK, "landmap.sock")
    # The commits at the end add to those that were loaded.
    more = ["--features", str(2 * max(arguments.features, USUAL))]
    server = subprocess.Popen([arguments.program, "serve", "--socket", path, "--connections", "1024",
                               "--workers", str(arguments.workers)] + more, stdout=subprocess.PIPE, text=True)
    assert server.stdout.readline() == f"listening {path}\n"
    print(f"memory of a server with no features: {ticks(server)[1]} KiB")
    load(path, arguments.features)
    time.sleep(1)
    clients = [int(count) for count in arguments.clients.split(",")]
    for name, file, count, batch in cases(arguments.features, clients, WORK):
        rate, middle, late, size = asked(path, count, arguments.seconds, batch, file, ["HELLO north"])
        # A trail takes 1,048,576 records; behind them each search is refused by a line of ten bytes.
        assert name == "empty window" or size > 100, "the trail is full: give fewer --seconds"
        echo_rate, echo_middle, echo_late, _ = answered(count, arguments.seconds, batch, file, size)
        print(f"{name:13} {count:3} clients, {batch:2} a batch: {rate:9.0f} a second, {middle:8.1f} us, {late:8.1f} us; "
              f"{size:9.1f} bytes; in C {echo_rate:9.0f}, {echo_middle:8.1f} us, {echo_late:8.1f} us; ratio {middle / echo_middle:5.2f}")
    commits(path, 1, 2000)
    commits(path, 16, 500)
    time.sleep(2)
    before, memory = ticks(server)
    time.sleep(3)
    after, _ = ticks(server)
    print(f"idle with {arguments.features} features: {after - before} ms of the processor in 3 s; memory {memory} KiB")
    server.kill()


main()
