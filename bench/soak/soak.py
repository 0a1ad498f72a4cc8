#!/usr/bin/env python3
"""A server that strangers speak to: lines that are nearly right, and clients that behave badly.

    bench/soak/soak.py [--lines 1000000] [--seed 1] [--minutes 0] [PROGRAM]

With --minutes all parts are run again with the next seed until so much time has gone by. Each part runs against one `landmap serve` of its own, beside or before a watcher: a client whose office changes and searches a
corner that nobody else may touch, and who knows each reply beforehand. A part fails where the watcher is answered otherwise, where the
server ends by itself, or where it does not end with status 0 and `closed R records` behind its connections. Exits with 1 where a
part fails.
"""
import argparse
import json
import os
import random
import re
import signal
import socket
import subprocess
import sys
import tempfile
import threading
import time

TOP = os.path.dirname(os.path.dirname(os.path.dirname(os.path.abspath(__file__))))
WAIT = 60
WORDS = ["HELLO", "SEARCH", "ADD", "RESHAPE", "DELETE", "COMMIT", "ABORT", "EXPLAIN", "POLICY", "ROLL", "OPEN", "STEP", "FINISH", "BYE",
         "hello", "", "SEARCHES", "#"]
BITS = ["north", "stranger", "mast", "road", "read", "add", "POINT (1 2)", "POINT(1 2", "LINESTRING (0 0, 3 4)", "LINESTRING (0 0, 0 0)",
        "POLYGON ((0 0, 4 0, 4 4, 0 4, 0 0))", "POLYGON ((0 0, 4 0, 0 4, 4 4, 0 0))", "MULTIPOINT (1 1)", "POINT (1e3 2)",
        "POINT (10000001 0)", "POINT EMPTY", "1", "0", "18446744073709551615", "18446744073709551616", "-1", "+1", "{}", "[", "\x00", "\t",
        '{"root":{"combine":"first-applicable","policy":"p","rules":[]}}', "é", "%", "(((((("]
SUBJECTS = [
    {"name": "watcher", "office": "tower", "role": "editor", "steward": False},
    {"name": "stranger", "office": "street", "role": "editor", "steward": False},
    {"name": "chief", "office": "hq", "role": "chief", "steward": True},
]
# Everybody changes the features of the own office alone, and the watcher's class is the watcher's.
POLICY = {"root": {"combine": "first-applicable", "policy": "own", "rules": [
    {"effect": "deny", "rule": "tower", "target": [[[{"class": "tower"}]]], "when": [{"not": {"own": True}}]},
    {"effect": "deny", "rule": "towers", "target": [[[{"class": "tower"}]]], "when": [{"not": {"office": "tower"}}]},
    {"effect": "permit", "rule": "all"}]}}

# What the first line of a reply may be.
REPLY = re.compile(
    r"hello [a-z0-9-]+|rows \d+|staged|aborted|held|memory|applied \d+|(absent|exists|stale \d+) change \d+|edition \d+|rolled \d+"
    r"|(denied|permit) (rule [a-z0-9-]+|none) (change|edition) \d+|error [A-Z]\d+")


class Server:
    """A server for so many connections, and what is known of its process."""

    running = None

    def __init__(self, program, connections, options=()):
        folder = tempfile.mkdtemp()
        self.path = os.path.join(folder, "socket")
        config = os.path.join(folder, "config.json")
        with open(config, "w", encoding="ascii") as file:
            json.dump({"subjects": SUBJECTS, "policies": POLICY}, file)
        self.errors = open(os.path.join(folder, "errors"), "w+", encoding="utf-8")
        self.process = subprocess.Popen(
            [program, "serve", "--socket", self.path, "--config", config, "--connections", str(connections), *options],
            stdout=subprocess.PIPE, stderr=self.errors, text=True)
        Server.running = self.process
        assert self.process.stdout.readline() == f"listening {self.path}\n"

    def memory(self):
        """KiB in memory."""
        with open(f"/proc/{self.process.pid}/status", encoding="ascii") as file:
            return next(int(line.split()[1]) for line in file if line.startswith("VmRSS"))

    def connect(self):
        stream = socket.socket(socket.AF_UNIX, socket.SOCK_STREAM)
        stream.settimeout(WAIT)
        stream.connect(self.path)
        return stream

    def end(self):
        """What the server has told when its last connection has ended."""
        told, _ = self.process.communicate(timeout=WAIT)
        self.errors.seek(0)
        warnings = len(self.errors.read().splitlines())
        assert self.process.returncode == 0, f"status {self.process.returncode}"
        assert told.startswith("closed ") and told.endswith(" records\n"), told
        return told.strip(), warnings


class Watcher:
    """A client that knows each of its replies beforehand."""

    def __init__(self, server):
        self.stream = server.connect()
        self.lines = self.stream.makefile("r", encoding="ascii", newline="\n")
        self.number = 900_000_000
        self.asked = 0
        self.expect("HELLO watcher", ["hello watcher"])

    def expect(self, line, replies):
        self.stream.sendall(line.encode("ascii") + b"\n")
        for due in replies:
            told = self.lines.readline().rstrip("\n")
            assert told == due or due == "applied" and told.startswith("applied "), f"{line}: {told!r} and not {due!r}"
        self.asked += 1
        return told

    def round(self):
        """A feature comes, is found, and goes."""
        self.number += 1
        self.expect(f"ADD {self.number} tower POINT (-9999999 {self.number % 1000})", ["staged"])
        version = self.expect("COMMIT", ["applied"]).split()[1]
        where = f"POINT (-9999999 {self.number % 1000})"
        self.expect(f"SEARCH {where}", ["rows 1", f"{self.number} {version} tower tower {where}"])
        self.expect(f"DELETE {self.number} {version}", ["staged"])
        self.expect("COMMIT", ["applied"])
        self.expect(f"SEARCH {where}", ["rows 0"])

    def watch(self, threads):
        """Goes round while one of these threads runs, and once more."""
        while any(thread.is_alive() for thread in threads):
            self.round()
        self.round()

    def bye(self):
        self.expect("BYE", ["bye"])
        self.stream.close()


def nearly_right(rng):
    """A line that a session might send, with something wrong in most of them."""
    draw = rng.random()
    if draw < 0.3:
        return rng.choice(["SEARCH POINT (5 5)", "COMMIT", "ABORT", f"ADD {rng.randrange(50)} mast POINT ({rng.randrange(50)} 7)",
                           f"DELETE {rng.randrange(50)} {rng.randrange(9)}", "EXPLAIN read street mast POINT (1 1)",
                           "SEARCH POLYGON ((0 0, 9 0, 9 9, 0 9, 0 0))"])
    line = " ".join([rng.choice(WORDS)] + [rng.choice(BITS) for _ in range(rng.randrange(5))])
    if draw < 0.4 and line:
        at = rng.randrange(len(line))
        line = line[:at] + chr(rng.randrange(256)) + line[at + 1:]
    return line.replace("\n", " ")


def pour(server, rng, lines):
    """Sends so many lines over one connection, none of them BYE, while another thread reads what comes: one reply a line."""
    stream = server.connect()
    told = []
    reader = threading.Thread(target=read_replies, args=(stream, told))
    reader.start()
    stream.sendall(b"HELLO stranger\n")
    for _ in range(0, lines, 50):
        batch = [nearly_right(rng) for _ in range(50)]
        stream.sendall("".join(("#" + line if line.startswith("BYE") else line) + "\n" for line in batch).encode("latin-1"))
    stream.shutdown(socket.SHUT_WR)
    reader.join()
    stream.close()
    assert told == [-(-lines // 50) * 50 + 1], f"{lines} lines and a HELLO, and replies: {told}"


def read_replies(stream, told):
    """Reads replies to the end, and tells how many came; or one that is none."""
    count = 0
    try:
        with stream.makefile("r", encoding="ascii", newline="\n") as lines:
            for line in lines:
                if not line.endswith("\n") or not REPLY.fullmatch(line[:-1]):
                    told.append(line)
                count += 1
                word, _, rows = line.partition(" ")
                for _ in range(int(rows) if word in ("rows", "rolled") else 0):
                    lines.readline()
    except (OSError, ValueError) as fault:
        told.append(fault)
    told.append(count)


def beside(watcher, calls):
    """Makes each call in a thread of its own, while the watcher goes round. A call that fails fails the part."""
    faults = []

    def made(call):
        try:
            call()
        except (AssertionError, OSError) as fault:
            faults.append(fault)

    threads = [threading.Thread(target=made, args=(call,)) for call in calls]
    for thread in threads:
        thread.start()
    watcher.watch(threads)
    for thread in threads:
        thread.join()
    if faults:
        raise faults[0]


def nearly_right_lines(arguments):
    """Lines that are nearly right, over four sockets at once."""
    server = Server(arguments.program, 5, ["--workers", "8"])
    watcher = Watcher(server)
    before = server.memory()
    share = arguments.lines // 4
    beside(watcher, [lambda seed=seed: pour(server, random.Random(arguments.seed * 10 + seed), share) for seed in range(4)])
    after = server.memory()
    watcher.bye()
    return server, f"{share * 4} lines, {watcher.asked} of the watcher's; memory {before} KiB before, {after} behind"


def bytes_of_every_value(arguments):
    """Each byte value in a line of its own, all of them in one, and a line without an end."""
    server = Server(arguments.program, 2)
    watcher = Watcher(server)
    stream = server.connect()
    every = bytes(value for value in range(256) if value != 10)
    for chunk in [bytes([value]) + b"\n" for value in range(256)] + [every + b"\n", b"x" * 200_000 + b"\n", b"\xff" * 10]:
        stream.sendall(chunk)
    stream.shutdown(socket.SHUT_WR)
    told = b""
    while chunk := stream.recv(65_536):
        told += chunk
    stream.close()
    # One reply a line: 256 of one byte, a line feed among them that makes two, the line of all, the long one, and the last.
    assert told.count(b"\n") == 260, told.count(b"\n")
    assert all(line.startswith(b"error ") for line in told.splitlines()), told
    watcher.round()
    watcher.bye()
    return server, "each refused by a code"


def half_a_line(arguments):
    """A client that sends half a line and is silent, which --idle ends."""
    server = Server(arguments.program, 3, ["--idle", "1"])
    stream = server.connect()
    stream.sendall(b"HELLO stran")
    begun = time.time()
    assert stream.recv(100) == b"", "the connection ends"
    waited = time.time() - begun
    stream.close()
    for _ in range(2):
        watcher = Watcher(server)
        watcher.round()
        watcher.bye()
    return server, f"ended after {waited:.1f} s"


def long_policies(arguments):
    """A steward's documents of 65,536 bytes and less: one that is read, and many that are cut off."""
    server = Server(arguments.program, 2)
    watcher = Watcher(server)
    stream = server.connect()
    lines = stream.makefile("r", encoding="ascii", newline="\n")
    text = json.dumps(POLICY)
    whole = "POLICY " + text + " " * (65_536 - 7 - len(text))
    rng = random.Random(arguments.seed)
    stream.sendall(b"HELLO chief\n")
    assert lines.readline() == "hello chief\n"
    stream.sendall(whole.encode("ascii") + b"\n")
    assert lines.readline() == "edition 2\n"
    stream.sendall(whole.encode("ascii") + b" \n")
    assert lines.readline() == "error E1\n"
    rules = [{"effect": "permit", "rule": f"r{number}"} for number in range(600)]
    many = json.dumps({"root": {"combine": "first-applicable", "policy": "p", "rules": rules}})
    stream.sendall(b"POLICY " + many.encode("ascii") + b"\n")
    assert lines.readline().startswith("error D8")
    for _ in range(2_000):
        cut = text[:rng.randrange(len(text))]
        stream.sendall(b"POLICY " + cut.encode("ascii") + b"\n")
        told = lines.readline()
        assert told.startswith("error "), told
    stream.sendall(b"BYE\n")
    assert lines.readline() == "bye\n"
    stream.close()
    watcher.round()
    watcher.bye()
    return server, "65,536 bytes are read, one more is E1, 600 rules are too many, each front of a document is refused"


def one_that_never_reads(arguments):
    """A client that sends searches without end and never reads, until it is cut off, while others go on."""
    server = Server(arguments.program, 2)
    watcher = Watcher(server)
    stream = server.connect()
    stream.settimeout(3)
    sent = 0
    line = b"HELLO stranger\n" + b"EXPLAIN read street mast POINT (1 1)\n" * 1_000
    try:
        while True:
            sent += stream.send(line)
    except OSError:
        pass
    for _ in range(500):
        watcher.round()
    stream.close()
    watcher.bye()
    return server, f"it took {sent} bytes until it would not send more; the watcher was answered {watcher.asked} times beside it"


def many_connections(arguments):
    """A thousand connections one after another, which say little or nothing."""
    server = Server(arguments.program, 1_001, ["--workers", "2"])
    watcher = Watcher(server)
    begun = server.memory()
    for number in range(1_000):
        stream = server.connect()
        if number % 4 == 0:
            stream.sendall(b"HELLO stranger\nBYE\n")
            assert stream.recv(100) == b"hello stranger\nbye\n"
        elif number % 4 == 1:
            stream.sendall(b"HELLO stranger\nSEARCH PO")
        elif number % 4 == 2:
            stream.sendall(b"\n")
        stream.close()
        if number % 100 == 0:
            watcher.round()
    ended = server.memory()
    watcher.round()
    watcher.bye()
    return server, f"memory {begun} KiB before, {ended} behind"


CHILD = """
import socket, sys
s = socket.socket(socket.AF_UNIX, socket.SOCK_STREAM)
s.connect(sys.argv[1])
s.sendall(b"HELLO stranger\\n")
print("connected", flush=True)
number = 0
while True:
    number += 1
    s.sendall(b"ADD %d mast POINT (3 3)\\nCOMMIT\\nSEARCH POINT (3 3)\\n" % number)
    s.recv(100000)
"""


def killed_clients(arguments):
    """Clients that are killed in the middle of what they do."""
    server = Server(arguments.program, 21)
    watcher = Watcher(server)
    rng = random.Random(arguments.seed)
    for _ in range(20):
        with subprocess.Popen([sys.executable, "-c", CHILD, server.path], stdout=subprocess.PIPE) as child:
            child.stdout.readline()
            time.sleep(rng.random() / 5)
            child.send_signal(signal.SIGKILL)
        watcher.round()
    watcher.bye()
    return server, "20 were killed"


def part(name, call, arguments):
    """Runs a part, and tells how it went."""
    begun = time.time()
    Server.running = None
    try:
        server, told = call(arguments)
        closed, warnings = server.end()
    except (AssertionError, OSError, subprocess.TimeoutExpired) as fault:
        print(f"{name}: FAILED: {fault!r}")
        if Server.running:
            Server.running.kill()
        return False
    print(f"{name}: {told}; {closed}, {warnings} warnings; {time.time() - begun:.1f} s")
    return True


def main():
    parser = argparse.ArgumentParser(description=__doc__, formatter_class=argparse.RawDescriptionHelpFormatter)
    parser.add_argument("--lines", type=int, default=1_000_000)
    parser.add_argument("--seed", type=int, default=1)
    parser.add_argument("--minutes", type=float, default=0)
    parser.add_argument("program", nargs="?", default=os.path.join(TOP, "crates", "landmap", "out", "landmap"))
    arguments = parser.parse_args()
    parts = [
        ("nearly right lines", nearly_right_lines),
        ("bytes of every value", bytes_of_every_value),
        ("half a line", half_a_line),
        ("long policies", long_policies),
        ("one that never reads", one_that_never_reads),
        ("many connections", many_connections),
        ("killed clients", killed_clients),
    ]
    begun, rounds, failed = time.time(), 0, 0
    while rounds == 0 or time.time() - begun < arguments.minutes * 60:
        failed += sum(not part(name, call, arguments) for name, call in parts)
        rounds += 1
        arguments.seed += 1
        if arguments.minutes:
            print(f"{rounds} rounds, {failed} parts failed, {(time.time() - begun) / 60:.1f} minutes", flush=True)
    sys.exit(1 if failed else 0)


main()
