#!/usr/bin/env python3
"""Times a server with a store, beside PostgreSQL and SQLite, which keep as much on the same disk.

    bench/store/commits.py [--features 20000] [--rounds 3] [--share 1] [--part all] PROGRAM        as root, with Debian's postgresql-15

Lists: of one feature by one client, and by sixteen; of sixteen features by one client, one list after the other, and four sent at
once. Each list is answered when it is on the disk:

  * landmap: `serve --store` with `--wait all`, over its socket, by adder.c;
  * PostgreSQL: over its socket, by pgbench with prepared statements, `fsync` and `synchronous_commit` on: a list is one statement that
    adds the rows to a table of features and a row to one of records; what is sent at once is a pipeline of transactions;
  * SQLite in C: in the process that asks, by sqlite_adder.c, a write-ahead log and `synchronous = FULL`. It has no way to send at once.

Each has as many features at the beginning of a round. In a round they take turns, and the table has the middle round of each. Then
searches of about ten rows, without a store and with one (`--wait changes`, `--wait all`), and how long a start takes over a store of
100,000 features, which is as many as a world has. The folder is a temporary one (TMPDIR says where).
"""
import argparse
import glob
import math
import os
import random
import shutil
import signal
import statistics
import subprocess
import tempfile
import time

import parts

HERE = os.path.dirname(os.path.abspath(__file__))
BIN = "/usr/lib/postgresql/15/bin"

# What is asked: its name, clients, lists of each client, features of a list, lists sent at once.
LISTS = [("a list of one, 1 client", 1, 3000, 1, 1), ("a list of one, 16 clients", 16, 600, 1, 1),
         ("a list of sixteen, 1 client", 1, 1000, 16, 1), ("four lists of sixteen at once, 1 client", 1, 1000, 16, 4)]

TABLES = ["CREATE TABLE feature (id bigint PRIMARY KEY, version bigint NOT NULL, office text NOT NULL, class text NOT NULL, shape text NOT NULL)",
          "CREATE TABLE record (number bigserial PRIMARY KEY, line text NOT NULL)", "CREATE SEQUENCE ids"]
ADDED = """WITH added AS (INSERT INTO feature SELECT nextval('ids'), currval('ids'), 'north', 'mast',
 'POINT (' || round(random() * 20000000 - 10000000) || ' ' || round(random() * 20000000 - 10000000) || ')' FROM generate_series(1, {size})
 RETURNING id, shape) INSERT INTO record (line) SELECT '{{"changes":[' || string_agg('{{"class":"mast","id":' || id || ',"shape":"' || shape ||
 '","what":"add"}}', ',') || '],"kind":"applied","number":1,"seat":1,"subject":"north","version":' || max(id) || '}}' FROM added;"""


def ran(words, **how):
    return subprocess.run(words, check=True, stdout=subprocess.PIPE, text=True, **how).stdout


class Landmap:
    name = "landmap"

    def __init__(self, program, room, features):
        self.program, self.room, self.features, self.server, self.rounds, self.next = program, room, features, None, 0, 0
        self.path = os.path.join(room, "socket")

    def begin_round(self):
        """A new store, since a world has room for 100,000 features."""
        self.rounds, self.next = self.rounds + 1, self.features + 1
        folder = os.path.join(self.room, f"store{self.rounds}")
        os.mkdir(folder, 0o700)
        self.server, _ = parts.serve(self.program, self.path, "--store", folder, "--connections", "1000", "--workers", "16")
        parts.load(self.path, self.features)

    def lists(self, clients, lists, size, together):
        words = [clients, lists, size, together, self.next]
        self.next += clients * lists * size
        return [float(word) for word in ran([os.path.join(self.room, "adder"), self.path, *map(str, words)]).split()]

    def end_round(self):
        self.server.kill()
        self.server.wait()


class Sqlite:
    name = "SQLite in C"

    def __init__(self, room, features):
        self.room, self.next, self.file = room, 1, os.path.join(room, "sqlite.db")
        self.lists(1, features // 16, 16, 1)

    def begin_round(self):
        pass

    def lists(self, clients, lists, size, together):
        if together > 1:
            return None
        words = [self.file, clients, lists, size, self.next]
        self.next += clients * lists * size
        return [float(word) for word in ran([os.path.join(self.room, "sqlite_adder"), *map(str, words)]).split()]

    def end_round(self):
        pass


class Postgres:
    name = "PostgreSQL"

    def __init__(self, room, features):
        self.room = os.path.join(room, "postgres")
        os.mkdir(self.room)
        shutil.chown(self.room, "postgres")
        os.chmod(room, 0o711)
        self.run(f"{BIN}/initdb", "-D", "data", "-A", "trust")
        settings = f"-k {self.room} -h '' -c fsync=on -c synchronous_commit=on -c shared_buffers=512MB"
        self.run(f"{BIN}/pg_ctl", "-D", "data", "-w", "-l", "log", "-o", settings, "start")
        self.sql(*TABLES)
        self.sql(*[ADDED.format(size=16)] * (features // 16))

    def run(self, *words, **how):
        return ran(["setpriv", "--reuid=postgres", "--regid=postgres", "--clear-groups", *words], cwd=self.room, **how)

    def sql(self, *statements):
        return self.run(f"{BIN}/psql", "-h", self.room, "-q", "-v", "ON_ERROR_STOP=1", "postgres", input=";\n".join(statements))

    def begin_round(self):
        self.sql("CHECKPOINT")

    def lists(self, clients, lists, size, together):
        one = ADDED.format(size=size)
        text = one if together == 1 else "\\startpipeline\n" + f"BEGIN;\n{one}\nCOMMIT;\n" * together + "\\endpipeline\n"
        with open(os.path.join(self.room, "lists.sql"), "w", encoding="ascii") as file:
            file.write(text)
        words = ["-n", "-M", "prepared", "-c", clients, "-j", min(clients, 4), "-t", lists // together, "-l", "--log-prefix=times", "-f", "lists.sql"]
        told = self.run(f"{BIN}/pgbench", "-h", self.room, *map(str, words), "postgres", stderr=subprocess.DEVNULL)
        rate = next(float(line.split()[2]) for line in told.splitlines() if line.startswith("tps"))
        times = []
        for name in glob.glob(os.path.join(self.room, "times.*")):
            with open(name, encoding="ascii") as file:
                times += [float(line.split()[2]) for line in file]
            os.remove(name)
        assert len(times) == clients * (lists // together), "pgbench did not make all its lists"
        times.sort()
        return [rate * together, times[len(times) // 2], times[len(times) * 99 // 100]]

    def end_round(self):
        pass

    def end(self):
        self.run(f"{BIN}/pg_ctl", "-D", "data", "-m", "immediate", "stop")


def sync_time(room):
    """The middle time of 200 appended blocks with a sync behind each, in microseconds."""
    times, file = [], os.open(os.path.join(room, "syncs"), os.O_CREAT | os.O_WRONLY, 0o600)
    for _ in range(200):
        begun = time.perf_counter()
        os.write(file, bytes(4096))
        os.fdatasync(file)
        times.append((time.perf_counter() - begun) * 1e6)
    os.close(file)
    return statistics.median(times)


def time_lists(program, room, features, rounds, share):
    print(f"a sync of a block of 4,096 bytes behind the last one: {sync_time(room):.0f} us")
    postgres = Postgres(room, features)
    makers = [Landmap(program, room, features), postgres, Sqlite(room, features)]
    found = {}
    try:
        for _ in range(rounds):
            for maker in makers:
                maker.begin_round()
            for name, clients, count, size, together in LISTS:
                count = max(1, round(count * share / together)) * together
                for maker in makers:
                    found.setdefault((name, maker.name), []).append(maker.lists(clients, count, size, together))
            for maker in makers:
                maker.end_round()
    finally:
        postgres.end()
        if makers[0].server:
            makers[0].server.kill()
    print(f"\n| Lists behind {features:,} features | | " + " | ".join(maker.name for maker in makers) + " | landmap to PostgreSQL | to SQLite |")
    print("|" + "---|" * (len(makers) + 4))
    for name, clients, _, size, together in LISTS:
        middles = [middle(found[name, maker.name]) for maker in makers]
        what = "lists a second" if size == 1 else "features a second"
        rates = [told and told[0] * size for told in middles]
        print(row(name, what, rates, "{:,.0f}"))
        print(row("", "middle of a list, us" if together == 1 else "middle of four, us", [told and told[1] for told in middles], "{:,.0f}"))
        print(row("", "99th percentile, us", [told and told[2] for told in middles], "{:,.0f}"), flush=True)


def middle(rounds):
    """The round whose rate is the middle one."""
    return None if rounds[0] is None else sorted(rounds)[len(rounds) // 2]


def row(name, what, values, form, to_first=False):
    """A row of a table, with the ratios of the first value to each other one, or of each other one to the first."""
    shown = ["-" if value is None else form.format(value) for value in values]
    ratios = ["-" if value is None else f"{value / values[0] if to_first else values[0] / value:.2f}" for value in values[1:]]
    return f"| {name} | {what} | " + " | ".join(shown + ratios) + " |"


def searches(room, features):
    chance, side = random.Random(2), round(2 * parts.SIZE * math.sqrt(10 / features))
    file = os.path.join(room, "searches")
    with open(file, "w", encoding="ascii") as out:
        for _ in range(5000):
            x, y = (chance.randint(-parts.SIZE, parts.SIZE - side) for _ in range(2))
            out.write(f"SEARCH POLYGON (({x} {y}, {x + side} {y}, {x + side} {y + side}, {x} {y + side}, {x} {y}))\n")
    return file


def time_searches(program, room, features, rounds, seconds=2):
    file, path, found = searches(room, features), os.path.join(room, "socket"), {}
    kinds = {"no store": [], "`--wait changes`": ["--wait", "changes"], "`--wait all`": ["--wait", "all"]}
    for at in range(rounds):
        for kind, words in kinds.items():
            if words:
                folder = os.path.join(room, f"searched{at}{words[1]}")
                os.mkdir(folder, 0o700)
                words = ["--store", folder, *words]
            server, _ = parts.serve(program, path, *words, "--connections", "1000", "--workers", "16")
            parts.load(path, features)
            time.sleep(1)
            for clients in (1, 16):
                told = ran([os.path.join(room, "asker"), path, str(clients), str(seconds), "1", file, "HELLO north"]).split()
                found.setdefault((clients, kind), []).append([float(word) for word in told[:3]])
            server.kill()
            server.wait()
    print(f"\n| SEARCH of about ten rows, {features:,} features | | " + " | ".join(kinds) + " | `changes` to no store | `all` to no store |")
    print("|" + "---|" * (len(kinds) + 4))
    for clients in (1, 16):
        middles = [middle(found[clients, kind]) for kind in kinds]
        for at, what in enumerate(("a second", "middle, us", "99th percentile, us")):
            print(row(f"{clients} clients" if clients > 1 else "1 client", what, [told[at] for told in middles], "{:,.1f}" if at else "{:,.0f}", True), flush=True)


def greatest_memory(server):
    with open(f"/proc/{server.pid}/status", encoding="ascii") as file:
        return next(int(line.split()[1]) for line in file if line.startswith("VmHWM")) / 1024


def time_starts(program, room, features, rounds):
    path = os.path.join(room, "socket")
    print()
    for name, records in (("by lists of sixteen", 0), ("and 200,000 searches of nothing", 200_000)):
        folder = os.path.join(room, f"started{records}")
        os.mkdir(folder, 0o700)
        server, _ = parts.serve(program, path, "--store", folder, "--connections", "1000")
        parts.load(path, features)
        session = parts.Session(path)
        for _ in range(records // 50):
            session.ask("\n".join(["SEARCH POINT (1 1)"] * 50), 50)
        server.send_signal(signal.SIGKILL)
        server.wait()
        times, memory = [], 0
        for _ in range(rounds + 2):
            server, took = parts.serve(program, path, "--store", folder, "--connections", "1000")
            times.append(took)
            memory = greatest_memory(server)
            server.send_signal(signal.SIGKILL)
            server.wait()
        account = ran([program, "store", "list", folder]).strip()
        print(f"start over {features:,} features {name}: {times[0]:.2f} s behind the kill, then {statistics.median(times[1:]):.2f} s; "
              f"greatest memory {memory:.0f} MiB; {account}", flush=True)


def main():
    parser = argparse.ArgumentParser(description=__doc__, formatter_class=argparse.RawDescriptionHelpFormatter)
    parser.add_argument("--features", type=int, default=20_000, help="what each has before lists are timed")
    parser.add_argument("--most", type=int, default=100_000, help="the features of searches and starts")
    parser.add_argument("--rounds", type=int, default=3)
    parser.add_argument("--share", type=float, default=1, help="this share of the lists, to try the program")
    parser.add_argument("--part", choices=["all", "lists", "searches", "starts"], default="all")
    parser.add_argument("program")
    arguments = parser.parse_args()
    program, room = os.path.abspath(arguments.program), tempfile.mkdtemp()
    for words in (["adder", "adder.c", "-pthread"], ["sqlite_adder", "sqlite_adder.c", "-pthread", "-lsqlite3"], ["asker", "../serve_bench/asker.c", "-pthread"]):
        ran(["cc", "-O2", "-o", os.path.join(room, words[0]), os.path.join(HERE, words[1]), *words[2:]])
    try:
        if arguments.part in ("all", "lists"):
            time_lists(program, room, arguments.features, arguments.rounds, arguments.share)
        if arguments.part in ("all", "searches"):
            time_searches(program, room, arguments.most, arguments.rounds)
        if arguments.part in ("all", "starts"):
            time_starts(program, room, arguments.most, arguments.rounds)
    finally:
        shutil.rmtree(room)


if __name__ == "__main__":
    main()
