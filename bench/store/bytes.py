#!/usr/bin/env python3
"""Changes each byte of a small store in turn, and looks at what `landmap store` says of it.

    bench/store/bytes.py [--every 1] [--every-log 1] [--jobs 2] [--seed 1] PROGRAM

Two stores: a closed one, whose volume is one file; and one of a server that was killed, whose log (`-wal`) has lists that are not in
the file yet. In a copy one byte of the volume or of the log gets another random value. Then

  * of a changed volume `store check` says Q3 with status 1, or that it is right, and the records and features are what they were;
  * of a changed log it says so too, or the records are the first ones of those that were there, and the features those that these
    records led to: the lists behind the damage are gone, and no list is there in part.

Anything else (another state, another code, a crash, silence for half a minute) is printed as a fault, and the status is 1.
"""
import argparse
import collections
import concurrent.futures
import os
import random
import shutil
import signal
import subprocess
import tempfile

import parts


def closed_store(program, folder):
    """A store that a script has made and closed."""
    os.mkdir(folder, 0o700)
    text = "".join(f"n: {line}\n" for line in parts.LINES)
    subprocess.run([program, "script", "--store", folder, "-"], input=text, text=True, check=True, stdout=subprocess.DEVNULL, stderr=subprocess.DEVNULL)


def killed_store(program, folder):
    """A store whose server was killed behind the same lines."""
    os.mkdir(folder, 0o700)
    path = os.path.join(os.path.dirname(folder), "socket")
    server, _ = parts.serve(program, path, "--store", folder, "--connections", "1")
    session = parts.Session(path, "chief")
    for line in parts.LINES[1:]:
        reply = session.ask(line, 1)[0]
        for _ in range(int(reply.split()[1]) if reply.startswith("rows ") else 0):
            session.hear()
    server.send_signal(signal.SIGKILL)
    server.wait()


class Tries:
    """The tries of one store."""

    def __init__(self, program, folder, file):
        self.program, self.file = program, file
        copy = tempfile.mkdtemp()
        shutil.copytree(folder, os.path.join(copy, "store"))
        self.records, self.features = parts.text_of(program, os.path.join(copy, "store"))
        shutil.rmtree(copy)
        self.whole = {}
        for name in os.listdir(folder):
            with open(os.path.join(folder, name), "rb") as whole:
                self.whole[name] = whole.read()
        self.bytes = self.whole[file]

    def one(self, at, value):
        """What comes of this value at this place: a word, and a fault where that may not be."""
        room = tempfile.mkdtemp()
        try:
            copy = os.path.join(room, "store")
            os.mkdir(copy)
            for name, whole in self.whole.items():
                with open(os.path.join(copy, name), "wb") as file:
                    file.write(whole[:at] + bytes([value]) + whole[at + 1:] if name == self.file else whole)
            try:
                check = subprocess.run([self.program, "store", "check", copy], capture_output=True, text=True, timeout=30)
                return self.judged(copy, check)
            except subprocess.TimeoutExpired:
                return "fault", "nothing is said for half a minute"
        finally:
            shutil.rmtree(room)

    def judged(self, copy, check):
        if check.returncode == 1 and check.stderr.startswith("landmap: Q3 "):
            return "Q3", check.stderr.split(": ", 2)[-1].strip()
        if check.returncode != 0:
            return "fault", f"status {check.returncode}: {check.stderr.strip()}"
        records, features = parts.text_of(self.program, copy)
        if (records, features) == (self.records, self.features):
            return "the same", ""
        if self.file.endswith("-wal") and self.records.startswith(records):
            due = parts.features_behind(records.decode("ascii").splitlines())
            found = dict(tuple(int(word) for word in line.split(b",", 2)[:2]) for line in features.splitlines())
            return ("fewer", "") if due == found else ("fault", f"{len(records.splitlines())} records, and features {found}: {due} is due")
        return "fault", f"another state: {len(records.splitlines())} records, {len(features.splitlines())} features"


def tried(program, folder, file, every, arguments):
    """Tries each place of a file, and tells what came of them. How many faults."""
    tries, chance = Tries(program, folder, file), random.Random(arguments.seed)
    places = range(chance.randrange(every), len(tries.bytes), every)
    values = [tries.bytes[at] ^ chance.randint(1, 255) for at in places]
    counts, texts, faults = collections.Counter(), collections.Counter(), 0
    with concurrent.futures.ThreadPoolExecutor(arguments.jobs) as pool:
        for at, value, (word, text) in zip(places, values, pool.map(tries.one, places, values)):
            counts[word] += 1
            if word == "Q3":
                texts[text] += 1
            if word == "fault":
                faults += 1
                print(f"{file}, byte {at} from {tries.bytes[at]} to {value}: {text}", flush=True)
    print(f"{file} of {len(tries.bytes)} bytes, {len(places)} changed: " + ", ".join(f"{word} {count}" for word, count in sorted(counts.items())))
    for text, count in texts.most_common():
        print(f"  {count:6} {text}")
    return faults


def main():
    parser = argparse.ArgumentParser(description=__doc__, formatter_class=argparse.RawDescriptionHelpFormatter)
    parser.add_argument("--every", type=int, default=1, help="each so manyth byte of the volumes alone")
    parser.add_argument("--every-log", type=int, default=1, help="each so manyth byte of the log alone")
    parser.add_argument("--jobs", type=int, default=2)
    parser.add_argument("--seed", type=int, default=1)
    parser.add_argument("program")
    arguments = parser.parse_args()
    program = os.path.abspath(arguments.program)
    room = tempfile.mkdtemp()
    closed, killed = os.path.join(room, "closed"), os.path.join(room, "killed")
    closed_store(program, closed)
    killed_store(program, killed)
    faults = tried(program, closed, "0000000001.db", arguments.every, arguments)
    faults += tried(program, killed, "0000000001.db", arguments.every, arguments)
    faults += tried(program, killed, "0000000001.db-wal", arguments.every_log, arguments)
    shutil.rmtree(room)
    raise SystemExit(1 if faults else 0)


if __name__ == "__main__":
    main()
