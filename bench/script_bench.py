#!/usr/bin/env python3
"""Times `landmap script` on generated files, over worlds of 1,000, 10,000 and 100,000 features and policies of 5, 50 and 500 rules.

usage: bench/script_bench.py [searches|commits|kinds] [FEATURES..]

searches   point features in random places; searches of about 10 rows, of 0.1 %, 1 % and 10 % of the features; microseconds a search
commits    a commit of one addition by rising ids and at random ids, and one of sixteen, on top of so many features; microseconds a commit
kinds      points, segments and polygons, searched by polygons of 4 and of 16 corners that take in about 10 rows

All three are run if none is named. FEATURES is 1000 10000 100000 if left out (for commits, what is added on top counts among them).
What a line costs is the difference of two runs, each the least of five, one of them with these lines left out. The program itself is
run: `./landmap build` is called once.
"""

import json
import math
import os
import random
import subprocess
import sys
import tempfile
import time

TOP = os.path.dirname(os.path.dirname(os.path.abspath(__file__)))
# The square from which places are drawn goes so far from its middle.
SIZE = 10_000_000
RULES = [5, 50, 500]
REPEATS = 5
PROGRAM = os.path.join(TOP, "crates", "landmap", "out", "landmap")

# The greatest memory of the runs so far, in KiB.
greatest = 0


def point(chance):
    return f"POINT ({chance.randint(-SIZE, SIZE)} {chance.randint(-SIZE, SIZE)})"


def segment(chance):
    x, y = chance.randint(-SIZE, SIZE - 1000), chance.randint(-SIZE, SIZE - 1000)
    return f"LINESTRING ({x} {y}, {x + chance.randint(1, 1000)} {y + chance.randint(0, 1000)})"


def polygon(corners, radius):
    """A function that makes convex polygons of so many corners."""

    def made(chance):
        x, y = chance.randint(-SIZE + radius, SIZE - radius), chance.randint(-SIZE + radius, SIZE - radius)
        turns = [2 * math.pi * (k + 0.5) / corners for k in range(corners)]
        ring = [(x + round(radius * math.cos(t)), y + round(radius * math.sin(t))) for t in turns]
        return "POLYGON ((" + ", ".join(f"{a} {b}" for a, b in ring + ring[:1]) + "))"

    return made


def mixed(chance):
    draw = chance.random()
    if draw < 0.7:
        return point(chance)
    return segment(chance) if draw < 0.9 else polygon(4, 1000)(chance)


def square(part):
    """A function that makes squares which take in this part of the whole."""
    side = round(2 * SIZE * math.sqrt(part))

    def made(chance):
        x, y = chance.randint(-SIZE, SIZE - side), chance.randint(-SIZE, SIZE - side)
        return f"POLYGON (({x} {y}, {x + side} {y}, {x + side} {y + side}, {x} {y + side}, {x} {y}))"

    return made


def configuration(rules):
    """A policy of so many rules, of which five may concern the subject: it changes what is its office's, and reads all but one class."""
    others = [{"rule": f"clerk{number}", "effect": "permit", "when": [{"role": "clerk"}]} for number in range(rules - 5)]
    own = [
        {"rule": "secret", "effect": "deny", "target": [[[{"class": "secret"}]]]},
        {"rule": "roads", "effect": "permit", "target": [[[{"class": "road"}]]]},
        {"rule": "rivers", "effect": "permit", "target": [[[{"class": "river"}]]]},
        {"rule": "own", "effect": "permit", "when": [{"own": True}]},
        {"rule": "reading", "effect": "permit", "target": [[[{"action": "read"}]]]},
    ]
    root = {"policy": "bench", "combine": "first-applicable", "rules": others + own}
    return {"subjects": [{"name": "north", "office": "roads", "role": "surveyor"}], "policies": {"root": root}}


def additions(kind, ids):
    """Additions by sixteen at a time."""
    chance = random.Random(1)
    yield "n: HELLO north\n"
    for place, number in enumerate(ids):
        yield f"n: ADD {number} mast {kind(chance)}\n"
        if place % 16 == 15 or place + 1 == len(ids):
            yield "n: COMMIT\n"


def commits(kind, ids, by):
    """Additions by so many at a time."""
    chance = random.Random(3)
    for place, number in enumerate(ids):
        yield f"n: ADD {number} mast {kind(chance)}\n"
        if place % by == by - 1:
            yield "n: COMMIT\n"


def searches(window, count):
    chance = random.Random(2)
    for _ in range(count):
        yield f"n: SEARCH {window(chance)}\n"


def timed(lines, rules):
    """Seconds of the script, the least of some runs."""
    global greatest
    with tempfile.TemporaryDirectory() as folder:
        script, config = os.path.join(folder, "bench.map"), os.path.join(folder, "bench.json")
        with open(script, "w") as file:
            file.writelines(lines)
        with open(config, "w") as file:
            json.dump(configuration(rules), file)
        seconds = []
        for _ in range(REPEATS):
            start = time.monotonic()
            child = subprocess.Popen([PROGRAM, "script", "--config", config, script], stdout=subprocess.DEVNULL)
            _, status, usage = os.wait4(child.pid, 0)
            seconds.append(time.monotonic() - start)
            if status != 0:
                sys.exit(f"landmap ended with status {status}")
            greatest = max(greatest, usage.ru_maxrss)
        return min(seconds)


def microseconds(loading, more, count, rules):
    return 1e6 * (timed(loading + more, rules) - timed(loading, rules)) / count


def bench_searches(features):
    loading = list(additions(point, range(1, features + 1)))
    windows = [("about 10 rows", 10 / features), ("0.1 %", 0.001), ("1 %", 0.01), ("10 %", 0.1)]
    for rules in RULES:
        told = []
        for name, part in windows:
            count = max(200, min(30_000, round(400_000 / (part * features + 1))))
            told.append(f"{name} {microseconds(loading, list(searches(square(part), count)), count, rules):.1f}")
        print(f"searches, {features} features, {rules} rules, microseconds: {'; '.join(told)}", flush=True)


def bench_commits(features):
    more = min(features // 2, 4000) // 16 * 16
    rising = list(range(1, features + 1))
    drawn = random.Random(4).sample(range(1, 10 * features), features)
    for rules in RULES:
        told = []
        for name, ids, by in [("one, rising ids", rising, 1), ("one, random ids", drawn, 1), ("sixteen, rising ids", rising, 16)]:
            loading = list(additions(point, ids[:-more]))
            told.append(f"{name} {microseconds(loading, list(commits(point, ids[-more:], by)), more // by, rules):.1f}")
        print(f"commits, up to {features} features, {rules} rules, microseconds: {'; '.join(told)}", flush=True)


def bench_kinds(features):
    loading = list(additions(mixed, range(1, features + 1)))
    radius = round(SIZE * math.sqrt(4 * 10 / (features * math.pi)))
    told = [f"{corners} corners {microseconds(loading, list(searches(polygon(corners, radius), 10_000)), 10_000, 5):.1f}" for corners in (4, 16)]
    print(f"kinds, {features} features, 5 rules, microseconds: {'; '.join(told)}", flush=True)


def main():
    benches = {"searches": bench_searches, "commits": bench_commits, "kinds": bench_kinds}
    named = [word for word in sys.argv[1:] if word in benches] or list(benches)
    sizes = [int(word) for word in sys.argv[1:] if word.isdigit()] or [1000, 10_000, 100_000]
    subprocess.run([os.path.join(TOP, "landmap"), "build"], check=True)
    for name in named:
        for features in sizes:
            benches[name](features)
    print(f"greatest memory: {greatest} KiB")


if __name__ == "__main__":
    main()
