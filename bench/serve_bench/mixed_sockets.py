#!/usr/bin/env python3
"""Times mixed work over the socket of `landmap serve`: 70,000 points, searches of ten rows, and commits of one feature.

    bench/serve_bench/mixed_sockets.py [--features 70000] [--seconds 3] [PROGRAM]

Three parts: one client that searches alone; the same while another client commits one feature every 100 ms, and while one commits without
pause (additions and deletions in turn); and 1, 4 and 16 clients each of which makes nine searches and then a commit of one feature, again and again. Each row: requests a
second (a commit is one, with its ADD), the 50th and 99th percentile of a search in microseconds, and the processor's share of the server.
Then a commit of one feature every 10 ms, alone and beside 4 and 16 clients that search without pause: the 50th and the 99th percentile of the
commit, and the longest, in milliseconds. A last row: 20,000 RESHAPEs of one client, and how much the server's memory has grown by them.

    bench/serve_bench/mixed_sockets.py --turns 15 [PROGRAM]

Only one client that searches, alone and beside a commit of one feature every 100 ms, in turn so often: the middle of each, by how much the
second is slower, and the processor's time of the commits alone.
"""
import argparse
import math
import os
import random
import socket
import subprocess
import tempfile
import threading
import time

TOP = os.path.dirname(os.path.dirname(os.path.dirname(os.path.abspath(__file__))))
HERE = os.path.dirname(os.path.abspath(__file__))
SIZE = 10_000_000


def square(chance, part):
    side = round(2 * SIZE * math.sqrt(part))
    x, y = chance.randint(-SIZE, SIZE - side), chance.randint(-SIZE, SIZE - side)
    return f"POLYGON (({x} {y}, {x + side} {y}, {x + side} {y + side}, {x} {y + side}, {x} {y}))"


def point(chance):
    return f"POINT ({chance.randint(-SIZE, SIZE)} {chance.randint(-SIZE, SIZE)})"


class Session:
    def __init__(self, path):
        self.socket = socket.socket(socket.AF_UNIX, socket.SOCK_STREAM)
        self.socket.connect(path)
        self.lines = self.socket.makefile("r", encoding="ascii")
        assert self.ask("HELLO north", 1) == ["hello north"]

    def ask(self, text, replies):
        self.socket.sendall((text + "\n").encode("ascii"))
        return [self.lines.readline().rstrip("\n") for _ in range(replies)]


def load(path, features):
    chance = random.Random(1)
    session = Session(path)
    for start in range(1, features + 1, 16):
        lines = [f"ADD {number} mast {point(chance)}" for number in range(start, min(start + 16, features + 1))]
        assert session.ask("\n".join(lines + ["COMMIT"]), len(lines) + 1)[-1].startswith("applied ")
    session.ask("BYE", 1)


def processor(server):
    with open(f"/proc/{server.pid}/stat", encoding="ascii") as file:
        words = file.read().rsplit(") ", 1)[1].split()
    return (int(words[11]) + int(words[12])) / os.sysconf("SC_CLK_TCK")


def memory(server):
    with open(f"/proc/{server.pid}/status", encoding="ascii") as file:
        return next(int(line.split()[1]) for line in file if line.startswith("VmRSS"))


def committing(path, pause, first, stop):
    """Adds one feature and deletes it again, with a pause between two lists, until it is told to stop."""
    chance, session, number, version = random.Random(first), Session(path), first, None
    while not stop.is_set():
        line = f"ADD {number} mast {point(chance)}" if version is None else f"DELETE {number} {version}"
        reply = session.ask(line + "\nCOMMIT", 2)[1]
        assert reply.startswith("applied "), reply
        version = reply.split()[1] if version is None else None
        if pause:
            time.sleep(pause)
    session.ask("BYE", 1)


def timed_commits(path, seconds, first):
    """The times of lists of one feature, one each 10 ms: the 50th and the 99th percentile, and the longest, in milliseconds."""
    chance, session, version, times = random.Random(first), Session(path), None, []
    end = time.monotonic() + seconds
    while time.monotonic() < end:
        line = f"ADD {first} mast {point(chance)}" if version is None else f"DELETE {first} {version}"
        begun = time.monotonic()
        reply = session.ask(line + "\nCOMMIT", 2)[1]
        times.append(1000 * (time.monotonic() - begun))
        assert reply.startswith("applied "), reply
        version = reply.split()[1] if version is None else None
        time.sleep(0.01)
    session.ask("BYE", 1)
    times.sort()
    return times[len(times) // 2], times[len(times) * 99 // 100], times[-1]


def asker(path, seconds, file):
    words = [os.path.join(WORK, "asker"), path, "1", str(seconds), "1", file, "HELLO north"]
    return subprocess.Popen(words, stdout=subprocess.PIPE, text=True)


def searches(features, count, rows=10):
    chance = random.Random(2)
    return [f"SEARCH {square(chance, rows / features)}" for _ in range(count)]


def written(name, lines):
    file = os.path.join(WORK, name)
    with open(file, "w", encoding="ascii") as out:
        out.write("\n".join(lines) + "\n")
    return file


def told(name, server, seconds, askers, before, extra=""):
    answers = [[float(word) for word in asker.communicate()[0].split()] for asker in askers]
    share = (processor(server) - before) / seconds
    rate = sum(answer[0] for answer in answers)
    middle, late = (sorted(answer[at] for answer in answers)[len(answers) // 2] for at in (1, 2))
    print(f"{name:44} {rate:8.0f} requests a second, {middle:7.1f} us, {late:8.1f} us, {share:4.2f} processors{extra}", flush=True)


def main():
    global WORK
    parser = argparse.ArgumentParser(description=__doc__, formatter_class=argparse.RawDescriptionHelpFormatter)
    parser.add_argument("--features", type=int, default=70_000)
    parser.add_argument("--seconds", type=float, default=3)
    parser.add_argument("--turns", type=int, default=0)
    parser.add_argument("program", nargs="?", default=os.path.join(TOP, "crates", "landmap", "out", "landmap"))
    arguments = parser.parse_args()
    WORK = tempfile.mkdtemp()
    subprocess.run(["cc", "-O2", "-pthread", "-o", os.path.join(WORK, "asker"), os.path.join(HERE, "asker.c")], check=True)
    path = os.path.join(WORK, "landmap.sock")
    # What the mix adds stays, and the commits behind it need room too.
    server = subprocess.Popen([arguments.program, "serve", "--socket", path, "--connections", "1024", "--workers", "20",
                               "--features", "1000000"], stdout=subprocess.PIPE, text=True)
    try:
        assert server.stdout.readline() == f"listening {path}\n"
        load(path, arguments.features)
        time.sleep(1)
        if arguments.turns:
            compare(path, server, arguments.features, arguments.seconds, arguments.turns)
        else:
            measure(path, server, arguments.features, arguments.seconds)
    finally:
        server.kill()


def compare(path, server, features, seconds, turns):
    """Searches of one client alone, and beside a commit every 100 ms, in turn."""
    file = written("searches", searches(features, 5000))
    rates = {False: [], True: []}
    for turn in range(2 * turns):
        # Each is the first of a pair as often as the second.
        beside = turn % 4 in (1, 2)
        stop = threading.Event()
        other = threading.Thread(target=committing, args=(path, 0.1, 20_000_000 + turn, stop))
        if beside:
            other.start()
        rates[beside].append(float(asker(path, seconds, file).communicate()[0].split()[0]))
        if beside:
            stop.set()
            other.join()
    alone, beside = (sorted(rates[key])[turns // 2] for key in (False, True))
    stop = threading.Event()
    other = threading.Thread(target=committing, args=(path, 0.1, 30_000_000, stop))
    other.start()
    before = processor(server)
    time.sleep(5)
    share = (processor(server) - before) / 5
    stop.set()
    other.join()
    print(f"alone {alone:.0f} searches a second ({min(rates[False]):.0f} to {max(rates[False]):.0f}), beside a commit every 100 ms {beside:.0f} "
          f"({min(rates[True]):.0f} to {max(rates[True]):.0f}): {100 * (1 - beside / alone):.1f} % fewer; {100 * share:.1f} % of a processor by those commits alone")


def measure(path, server, features, seconds):
    alone = written("searches", searches(features, 5000))
    told("one client searches alone", server, seconds, [asker(path, seconds, alone)], processor(server))
    for name, pause, first in (("beside a commit every 100 ms", 0.1, 20_000_000), ("beside commits without pause", 0, 30_000_000)):
        stop = threading.Event()
        other = threading.Thread(target=committing, args=(path, pause, first, stop))
        other.start()
        before = processor(server)
        time.sleep(1)
        lone = (processor(server) - before)
        told(name, server, seconds, [asker(path, seconds, alone)], processor(server), f"; {lone:4.2f} by those commits alone")
        stop.set()
        other.join()
    for clients in (1, 4, 16):
        files = []
        for client in range(clients):
            chance, lines = random.Random(client), []
            nine = searches(features, 5000)
            for at in range(20_000):
                lines += nine[(9 * at) % 4991:(9 * at) % 4991 + 9]
                lines += [f"ADD {100_000_000 * (clients * 20 + client + 1) + at} mast {point(chance)}\\", "COMMIT"]
            files.append(written(f"mixed{client}", lines))
        before = processor(server)
        told(f"{clients} clients, nine searches to one commit", server, seconds, [asker(path, seconds, file) for file in files], before)
    for clients, rows, name in ((0, 0, "alone"), (16, 10, "beside 16 of ten rows"), (4, features / 100, "beside 4 of 1 %"), (16, features / 100, "beside 16 of 1 %")):
        file = written("beside", searches(features, 5000, max(rows, 1)))
        askers = [asker(path, seconds + 1, file) for _ in range(clients)]
        time.sleep(0.5)
        middle, late, longest = timed_commits(path, seconds, 40_000_000 + clients * 1000 + int(rows))
        rate = sum(float(asker.communicate()[0].split()[0]) for asker in askers)
        print(f"a commit every 10 ms {name:24} {middle:6.2f} ms, {late:6.2f} ms, at most {longest:6.1f} ms; {rate:8.0f} searches a second", flush=True)
    session, chance = Session(path), random.Random(9)
    reply = session.ask("ADD 77777777 mast POINT (0 0)\nCOMMIT", 2)[1]
    assert reply.startswith("applied "), reply
    version = int(reply.split()[1])
    grown, begun = memory(server), time.time()
    for _ in range(20_000):
        reply = session.ask(f"RESHAPE 77777777 {version} {point(chance)}\nCOMMIT", 2)[1]
        version = int(reply.split()[1])
    print(f"20000 RESHAPEs in {time.time() - begun:.1f} s; memory grew by {memory(server) - grown} KiB (records stay: 190 bytes each)")
    time.sleep(2)
    before = processor(server)
    time.sleep(3)
    print(f"idle: {(processor(server) - before) * 1000:.0f} ms of the processor in 3 s; memory {memory(server)} KiB")


main()
