#!/usr/bin/env python3
"""Times `landmap export` and `landmap import` of drawn features, and how much memory they take.

    bench/gis/speed.py [--counts 10000,100000] [--rounds 3] [--seed 1] PROGRAM        needs Python 3 and Debian's package time

Each import goes into an empty server that does nothing else: CSV as draw_features.py draws it, and GeoJSON and a sequence of it as an
export writes them. Each export is a search of everything. The table has the middle round of seconds, features a second, and the greatest
memory that a client had. What is exported from a server that was filled by an export has to be the same bytes.
"""
import argparse
import json
import os
import shutil
import statistics
import subprocess
import tempfile
import time

HERE = os.path.dirname(os.path.abspath(__file__))
FORMATS = ("csv", "geojsonseq", "geojson")
CONFIG = {"subjects": [{"name": "north", "office": "north", "role": "editor"}],
          "policies": {"root": {"policy": "start", "combine": "first-applicable", "rules": [{"rule": "open", "effect": "permit"}]}},
          "grid": {"origin": ["7", "46"], "decimals": 7}}


class Server:
    """An empty server."""

    def __init__(self, program, room, config):
        self.path = os.path.join(room, "socket")
        words = [program, "serve", "--socket", self.path, "--takeover", "--connections", "100", "--config", config]
        self.process = subprocess.Popen(words, stdout=subprocess.PIPE, text=True)
        assert self.process.stdout.readline() == f"listening {self.path}\n"

    def end(self):
        self.process.kill()
        self.process.wait()


def timed(words, memory, output=None):
    """Runs a program. Seconds, greatest memory in MiB, and what it wrote."""
    begun = time.monotonic()
    ran = subprocess.run(["/usr/bin/time", "-f", "%M", "-o", memory, *words], stdout=output or subprocess.PIPE, check=True)
    took = time.monotonic() - begun
    with open(memory, encoding="ascii") as file:
        return took, int(file.read().split()[-1]) / 1024, ran.stdout


class Round:
    """The exports and imports of so many features, once."""

    def __init__(self, program, room, count, found):
        self.program, self.room, self.count, self.found = program, room, count, found
        self.config, self.memory = os.path.join(room, "config.json"), os.path.join(room, "memory")

    def bring_in(self, file, form):
        """Imports a file into an empty server."""
        for name in (f"{file}.done", f"{file}.refused.csv"):
            if os.path.exists(name):
                os.remove(name)
        server = Server(self.program, self.room, self.config)
        words = [self.program, "import", "--socket", server.path, "--as", "north", "--config", self.config, file]
        took, memory, told = timed(words, self.memory)
        assert told.decode("ascii").split() == ["rows", str(self.count), "applied", str(self.count), "present", "0", "refused", "0"], told
        self.found.setdefault((self.count, "import", form), []).append((took, memory))
        return server

    def bring_out(self, server, form):
        """Exports everything into a file."""
        file = os.path.join(self.room, f"out.{form}")
        words = [self.program, "export", "--socket", server.path, "--as", "north", "--format", form, "--config", self.config]
        with open(file, "wb") as output:
            took, memory, _ = timed(words, self.memory, output)
        self.found.setdefault((self.count, "export", form), []).append((took, memory))
        return file

    def run(self, drawn):
        server = self.bring_in(drawn, "csv")
        files = {form: self.bring_out(server, form) for form in FORMATS}
        server.end()
        for form in FORMATS[1:]:
            kept = os.path.join(self.room, f"kept.{form}")
            os.replace(files[form], kept)
            server = self.bring_in(kept, form)
            again = self.bring_out(server, form)
            server.end()
            with open(kept, "rb") as one, open(again, "rb") as other:
                assert one.read() == other.read(), f"{form} is not the same"


def main():
    parser = argparse.ArgumentParser(description=__doc__, formatter_class=argparse.RawDescriptionHelpFormatter)
    parser.add_argument("--counts", default="10000,100000")
    parser.add_argument("--rounds", type=int, default=3)
    parser.add_argument("--seed", default="1")
    parser.add_argument("program")
    arguments = parser.parse_args()
    room, found = tempfile.mkdtemp(), {}
    with open(os.path.join(room, "config.json"), "w", encoding="ascii") as file:
        json.dump(CONFIG, file)
    for count in map(int, arguments.counts.split(",")):
        drawn = os.path.join(room, f"drawn{count}.csv")
        with open(drawn, "wb") as output:
            subprocess.run([os.path.join(HERE, "draw_features.py"), str(count), arguments.seed], stdout=output, check=True)
        for _ in range(arguments.rounds):
            Round(os.path.abspath(arguments.program), room, count, found).run(drawn)
    print("| Features | | Form | Seconds | Features a second | Greatest memory, MiB |\n|---|---|---|---|---|---|")
    for (count, what, form), rounds in sorted(found.items()):
        took = statistics.median(took for took, _ in rounds)
        print(f"| {count:,} | {what} | {form} | {took:.2f} | {count / took:,.0f} | {max(memory for _, memory in rounds):.1f} |")
    shutil.rmtree(room)


if __name__ == "__main__":
    main()
