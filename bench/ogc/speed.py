#!/usr/bin/env python3
"""Times ten rows by HTTP, beside nginx with a file of as many bytes and PostGIS with the query of a feature server, in one run.

    bench/ogc/speed.py [--features 100000] [--seconds 3] [--clients 1,16] [--workers 16] [PROGRAM]

Each row: requests a second, the 50th and the 99th percentile (PostGIS: the average) in microseconds. `wrk` asks by HTTP, over
connections that stay open: `items` of a box of about ten points, each time another one of 5,000. PostGIS is asked by `pgbench` with
prepared statements over a Unix socket for the GeoJSON of the same boxes, by the query that pg_featureserv makes; nothing of HTTP is in
its times. Needs Debian's wrk, nginx-light, postgresql-15 and postgresql-15-postgis-3, and root (the database has a user of its own).
"""
import argparse
import json
import math
import os
import random
import re
import socket
import subprocess
import tempfile
import time
import urllib.request

TOP = os.path.dirname(os.path.dirname(os.path.dirname(os.path.abspath(__file__))))
SIZE = 10_000_000
USUAL = 100_000
BIN = "/usr/lib/postgresql/15/bin"
CONFIGURATION = {
    "subjects": [{"name": "guest", "office": "public", "role": "guest"}, {"name": "north", "office": "north", "role": "surveyor"}],
    "policies": {"root": {"policy": "map", "combine": "first-applicable", "rules": [{"rule": "all-is-permitted", "effect": "permit"}]}},
    "grid": {"origin": ["7", "46"], "decimals": 7},
    "anonymous": "guest",
    "collections": ["mast"],
}


def free_port():
    with socket.socket() as one:
        one.bind(("127.0.0.1", 0))
        return one.getsockname()[1]


def points(features):
    chance = random.Random(1)
    return [(chance.randint(-SIZE, SIZE), chance.randint(-SIZE, SIZE)) for _ in range(features)]


def degrees(value, origin):
    return f"{origin + value / 1e7:.7f}"


def boxes(features):
    """5,000 boxes of about ten points, in degrees."""
    chance = random.Random(2)
    side = round(2 * SIZE * math.sqrt(10 / features))
    for _ in range(5000):
        x, y = chance.randint(-SIZE, SIZE - side), chance.randint(-SIZE, SIZE - side)
        yield [degrees(x, 7), degrees(y, 46), degrees(x + side, 7), degrees(y + side, 46)]


def load(path, places):
    """Adds the points by lists of sixteen."""
    one = socket.socket(socket.AF_UNIX, socket.SOCK_STREAM)
    one.connect(path)
    lines = one.makefile("r", encoding="ascii")
    one.sendall(b"HELLO north\n")
    assert lines.readline() == "hello north\n"
    for start in range(0, len(places), 16):
        part = places[start:start + 16]
        asked = "".join(f"ADD {start + i + 1} mast POINT ({x} {y})\n" for i, (x, y) in enumerate(part)) + "COMMIT\n"
        one.sendall(asked.encode("ascii"))
        told = [lines.readline() for _ in range(len(part) + 1)]
        assert told[-1].startswith("applied "), told[-1]
    one.close()


MICROSECONDS = {"us": 1, "ms": 1e3, "s": 1e6}


def wrk(room, address, paths, clients, seconds):
    """Requests a second and two percentiles of so many clients."""
    script = os.path.join(room, "paths.lua")
    with open(script, "w", encoding="ascii") as out:
        out.write("local paths = {\n" + "".join(f'"{path}",\n' for path in paths) + "}\nlocal at = 0\n"
                  "function request() at = at % #paths + 1; return wrk.format('GET', paths[at]) end\n"
                  "function done(summary) if summary.errors.status > 0 then io.write('refused ', summary.errors.status) end end\n")
    told = subprocess.run(["wrk", "-t", str(min(clients, 4)), "-c", str(clients), "-d", f"{seconds}s", "--latency", "-s", script, address],
                          stdout=subprocess.PIPE, text=True, check=True).stdout
    assert "refused" not in told and "Socket errors" not in told, told
    rate = float(re.search(r"Requests/sec:\s+([\d.]+)", told).group(1))

    def percentile(which):
        number, unit = re.search(rf"{which}%\s+([\d.]+)(us|ms|s)", told).groups()
        return float(number) * MICROSECONDS[unit]
    return rate, percentile(50), percentile(99)


def nginx(room, port, size):
    """nginx with a file of so many bytes."""
    os.mkdir(os.path.join(room, "www"))
    with open(os.path.join(room, "www", "ten.json"), "wb") as out:
        out.write(b"x" * size)
    os.chmod(room, 0o755)
    with open(os.path.join(room, "nginx.conf"), "w", encoding="ascii") as out:
        out.write(f"""worker_processes 4; daemon off; pid {room}/nginx.pid; error_log {room}/nginx.log;
events {{ worker_connections 256; }}
http {{ access_log off; keepalive_requests 1000000000; default_type application/geo+json; open_file_cache max=10;
server {{ listen 127.0.0.1:{port}; root {room}/www; }} }}""")
    return subprocess.Popen(["nginx", "-c", os.path.join(room, "nginx.conf")])


class Base:
    """A cluster of PostgreSQL with the points."""

    def __init__(self, places):
        self.room = tempfile.mkdtemp()
        subprocess.run(["chown", "postgres", self.room], check=True)
        self.run(f"{BIN}/initdb", "-D", f"{self.room}/data", "-A", "trust")
        self.run(f"{BIN}/pg_ctl", "-D", f"{self.room}/data", "-w", "-l", f"{self.room}/log", "-o",
                 f"-k {self.room} -h '' -c fsync=off -c shared_buffers=512MB", "start")
        rows = "".join(f"{at + 1}\t{degrees(x, 7)}\t{degrees(y, 46)}\n" for at, (x, y) in enumerate(places))
        self.sql("CREATE EXTENSION postgis; CREATE TABLE given (id bigint, x float8, y float8);")
        self.sql("COPY given FROM STDIN;\n" + rows + "\\.\n")
        self.sql("CREATE TABLE mast AS SELECT id, 'north'::text office, 'mast'::text class, 1 AS version,"
                 " ST_SetSRID(ST_MakePoint(x, y), 4326)::geometry(Point, 4326) AS geom FROM given;"
                 " ALTER TABLE mast ADD PRIMARY KEY (id); CREATE INDEX ON mast USING gist (geom); VACUUM ANALYZE mast;")

    def run(self, *words, text=None):
        return subprocess.run(["setpriv", "--reuid=postgres", "--regid=postgres", "--clear-groups", *words], cwd=self.room, input=text,
                              stdout=subprocess.PIPE, text=True, check=True).stdout

    def sql(self, text):
        self.run(f"{BIN}/psql", "-h", self.room, "-q", "-v", "ON_ERROR_STOP=1", "postgres", text=text)

    def bench(self, features, clients, seconds):
        side = 2 * math.sqrt(10 / features)
        query = (f"\\set x random(0, {round((2 - side) * 1e7)})\n\\set y random(0, {round((2 - side) * 1e7)})\n"
                 f"SELECT ST_AsGeoJSON(geom, 7), id, office, class, version FROM mast WHERE ST_Intersects(geom,"
                 f" ST_MakeEnvelope(6 + :x / 1e7, 45 + :y / 1e7, 6 + :x / 1e7 + {side}, 45 + :y / 1e7 + {side}, 4326)) LIMIT 1000 OFFSET 0;\n")
        with open(f"{self.room}/query.sql", "w", encoding="ascii") as out:
            out.write(query)
        told = self.run(f"{BIN}/pgbench", "-h", self.room, "-n", "-M", "prepared", "-T", str(seconds), "-c", str(clients),
                        "-j", str(min(clients, 4)), "-f", f"{self.room}/query.sql", "postgres")
        return float(re.search(r"tps = ([\d.]+)", told).group(1)), float(re.search(r"latency average = ([\d.]+)", told).group(1)) * 1e3

    def end(self):
        self.run(f"{BIN}/pg_ctl", "-D", f"{self.room}/data", "-m", "immediate", "stop")


def main():
    parser = argparse.ArgumentParser(description=__doc__, formatter_class=argparse.RawDescriptionHelpFormatter)
    parser.add_argument("--features", type=int, default=100_000)
    parser.add_argument("--seconds", type=int, default=3)
    parser.add_argument("--clients", default="1,16")
    parser.add_argument("--workers", type=int, default=16)
    parser.add_argument("program", nargs="?", default=os.path.join(TOP, "crates", "landmap", "out", "landmap"))
    given = parser.parse_args()
    room = tempfile.mkdtemp()
    with open(os.path.join(room, "map.json"), "w", encoding="ascii") as out:
        json.dump(CONFIGURATION, out)
    path, port = os.path.join(room, "map.sock"), free_port()
    more = ["--features", str(given.features)] if given.features > USUAL else []
    server = subprocess.Popen([given.program, "serve", "--socket", path, "--config", os.path.join(room, "map.json"), "--http",
                               f"127.0.0.1:{port}", "--http-workers", str(given.workers)] + more, stdout=subprocess.PIPE, text=True)
    assert server.stdout.readline().startswith("listening ") and server.stdout.readline().startswith("listening ")
    places = points(given.features)
    load(path, places)
    paths = [f"/collections/mast/items?bbox={','.join(box)}" for box in boxes(given.features)]
    address = f"http://127.0.0.1:{port}"
    sizes = []
    for one in paths[:200]:
        with urllib.request.urlopen(address + one) as answer:
            sizes.append(len(answer.read()))
    size = sum(sizes) // len(sizes)
    print(f"{given.features} points; an answer has {size} bytes")
    other = free_port()
    files = nginx(room, other, size)
    time.sleep(1)
    base = Base(places)
    for clients in (int(word) for word in given.clients.split(",")):
        rate, middle, late = wrk(room, address, paths, clients, given.seconds)
        file_rate, file_middle, file_late = wrk(room, f"http://127.0.0.1:{other}", ["/ten.json"], clients, given.seconds)
        query_rate, query_middle = base.bench(given.features, clients, given.seconds)
        print(f"{clients:3} clients: landmap {rate:8.0f} a second, {middle:7.0f} us, {late:7.0f} us; "
              f"nginx {file_rate:8.0f}, {file_middle:7.0f} us, {file_late:7.0f} us; PostGIS {query_rate:8.0f}, {query_middle:7.0f} us; "
              f"{middle / file_middle:.2f} times nginx's time, {rate / query_rate:.2f} times PostGIS' rate")
    base.end()
    files.terminate()
    server.kill()


main()
