#!/usr/bin/env python3
"""Times `landmap script` beside a baseline in C++ on the same files and in the same run, by processor time.

    bench/baseline/beside.py [--features 1000,10000,100000] [--repeats 5] [--profile] [PROGRAM]

Makes scripts of so many point features in random places and with random ids, loaded by lists of sixteen, under a policy of five rules
that lets their subject read all of them; and of searches of about ten rows, of 0.1 %, 1 % and 10 % of the features behind them. It exits
with 1 where both programs' replies to a script are not the same bytes. What a line costs is the difference of two runs, one of them
without these lines, of each the least of some, in user and system time of the processor together; the replies are thrown away. The
tables are printed in Markdown.

With --profile it is not timed: perf tells where landmap spends its time, over 100,000 features, in 180,000 searches of about ten rows
and in 2,000 of 1 %.
"""
import argparse
import filecmp
import itertools
import json
import multiprocessing
import os
import random
import re
import resource
import shutil
import subprocess
import sys
import tempfile

HERE = os.path.dirname(os.path.abspath(__file__))
sys.path.insert(0, os.path.dirname(HERE))
import script_bench as bench

RULES = 5
MOST_ADDED = 16_000
LEAST_COMMITS = 100
SYMBOLS = 25
OWN, BASELINE = "landmap", "C++"


def windows(features):
    """What is searched for: a name, and the part of the whole."""
    return [("about 10 rows", 10 / features), ("0.1 %", 0.001), ("1 %", 0.01), ("10 %", 0.1)]


def drawn_ids(features):
    return random.Random(4).sample(range(1, 10 * features), features)


def written(path, *parts):
    """Writes a script, whose parts are functions that make lines, and answers its path.

    Another process writes it: what Linux tells as a program's greatest memory is at least that of the process which starts it, and so
    this one has to stay small.
    """

    def write():
        with open(path, "w", encoding="ascii") as file:
            file.writelines(itertools.chain.from_iterable(part() for part in parts))

    writer = multiprocessing.get_context("fork").Process(target=write)
    writer.start()
    writer.join()
    if writer.exitcode != 0:
        sys.exit(f"beside.py: cannot write {path}")
    return path


def loading(features, left=0):
    """Lines that add all features but the last ones."""
    return lambda: bench.additions(bench.point, drawn_ids(features)[: features - left])


def adding(features, count):
    """Lines that add the last features, sixteen at a time."""
    return lambda: bench.commits(bench.point, drawn_ids(features)[features - count :], 16)


def searching(part, count):
    return lambda: bench.searches(bench.square(part), count)


class Programs:
    """Both programs, and how each runs a script."""

    def __init__(self, program, folder):
        self.folder = folder
        setting = bench.configuration(RULES)
        config, baseline = os.path.join(folder, "bench.json"), os.path.join(folder, "baseline")
        with open(config, "w", encoding="ascii") as file:
            json.dump(setting, file)
        self.starts = {OWN: [program, "script", "--config", config], BASELINE: [baseline, setting["subjects"][0]["office"]]}

    def build(self):
        if shutil.which("g++") is None:
            sys.exit("beside.py: the baseline is compiled by g++, which is not on the PATH")
        command = ["g++", "-std=c++17", "-O2", "-o", self.starts[BASELINE][0], os.path.join(HERE, "baseline.cpp")]
        if subprocess.run(command).returncode != 0:
            sys.exit("beside.py: g++ could not compile the baseline")

    def run(self, name, script, output=subprocess.DEVNULL):
        """Runs a script. Answers the seconds of the processor and the greatest memory in KiB."""
        child = subprocess.Popen(self.starts[name] + [script], stdout=output)
        _, status, usage = os.wait4(child.pid, 0)
        if status != 0:
            sys.exit(f"beside.py: {name} ended with wait status {status} at {script}")
        return usage.ru_utime + usage.ru_stime, usage.ru_maxrss

    def compare(self, script):
        """Runs a script by both programs, whose replies have to be the same."""
        replies = {name: os.path.join(self.folder, f"replies.{number}") for number, name in enumerate(self.starts)}
        for name, path in replies.items():
            with open(path, "wb") as file:
                self.run(name, script, file)
        if not filecmp.cmp(*replies.values(), shallow=False):
            kept = tempfile.mkdtemp()
            for path in [script, *replies.values()]:
                shutil.move(path, kept)
            sys.exit(f"beside.py: the replies to a script differ; it is kept in {kept}, with {OWN}'s replies (0) and the baseline's (1)")

    def least(self, scripts, repeats):
        """The least time and memory of some runs of each script by each program, by the names of both."""
        figures = {}
        for _ in range(repeats):
            for title, script in scripts.items():
                for name in self.starts:
                    now = self.run(name, script)
                    before = figures.get((title, name), now)
                    figures[title, name] = min(now[0], before[0]), min(now[1], before[1])
        return figures


def measured(programs, features, repeats):
    """The rows of both tables for so many features."""

    def path(name):
        return os.path.join(programs.folder, f"{name}.map")

    added = min(features // 2, MOST_ADDED) // 16 * 16
    loads = {
        "none": written(path("none"), loading(0)),
        "loading": written(path("loading"), loading(features)),
        "before": written(path("before"), loading(features, added)),
        "adding": written(path("adding"), loading(features, added), adding(features, added)),
    }
    counts, searches = {}, {}
    for number, (title, part) in enumerate(windows(features)):
        counts[title] = round(3_000_000 / (part * features + 10))
        searches[title] = written(path(f"searches.{number}"), loading(features), searching(part, counts[title]))
    for script in [*loads.values(), *searches.values()]:
        programs.compare(script)
    # Those without searches are short, and chance counts more in them.
    figures = programs.least(searches, repeats) | programs.least(loads, 3 * repeats)

    def microseconds(name, more, less, count):
        return 1e6 * (figures[more, name][0] - figures[less, name][0]) / count

    searched, others = [], []
    for title, count in counts.items():
        own, theirs = (microseconds(name, title, "loading", count) for name in (OWN, BASELINE))
        searched.append([f"{features:,}", title, f"{count:,}", f"{own:,.1f}", f"{theirs:,.1f}", f"{own / theirs:.2f}"])
    costs = [("loading one, µs", "loading", "none", features)]
    if added // 16 >= LEAST_COMMITS:
        costs.append(("a commit of sixteen, µs", "adding", "before", added // 16))
    for title, more, less, count in costs:
        own, theirs = (microseconds(name, more, less, count) for name in (OWN, BASELINE))
        others.append([f"{features:,}", title, f"{own:,.1f}", f"{theirs:,.1f}", f"{own / theirs:.2f}"])
    # A figure that is no greater than what this process had is not the program's.
    least = resource.getrusage(resource.RUSAGE_SELF).ru_maxrss
    told = [figures["loading", name][1] for name in (OWN, BASELINE)]
    if min(told) > least:
        own, theirs = (memory / 1024 for memory in told)
        others.append([f"{features:,}", "greatest memory of loading, MiB", f"{own:.1f}", f"{theirs:.1f}", f"{own / theirs:.2f}"])
    return searched, others


def show(heads, rows):
    print("\n".join("| " + " | ".join(row) + " |" for row in [heads, ["---"] * len(heads)] + rows) + "\n")


def tables(programs, sizes, repeats):
    programs.build()
    searched, others = [], []
    for features in sizes:
        more = measured(programs, features, repeats)
        searched += more[0]
        others += more[1]
        print(f"{features:,} features: the replies are the same bytes", file=sys.stderr, flush=True)
    show(["Features", "Search of", "Searches", "landmap, µs", "C++, µs", "Ratio"], searched)
    show(["Features", "", "landmap", "C++", "Ratio"], others)


def profile(programs, features=100_000):
    """Prints the symbols in which landmap spends its time."""
    if shutil.which("perf") is None:
        sys.exit("beside.py: --profile asks for perf, which is not on the PATH")
    alone = written(os.path.join(programs.folder, "loading.map"), loading(features))
    data = os.path.join(programs.folder, "perf.data")
    for title, part, count in [("about 10 rows", 10 / features, 180_000), ("1 %", 0.01, 2_000)]:
        script = written(os.path.join(programs.folder, "profile.map"), loading(features), searching(part, count))
        share = programs.run(OWN, alone)[0] / programs.run(OWN, script)[0]
        print(f"{count:,} searches of {title} behind {features:,} features, whose loading takes {100 * share:.0f} % of the time", flush=True)
        subprocess.run(["perf", "record", "-q", "-e", "cpu-clock", "-F", "999", "-o", data] + programs.starts[OWN] + [script],
                       stdout=subprocess.DEVNULL, check=True)
        told = subprocess.run(["perf", "report", "--stdio", "--no-children", "--sort", "symbol", "-i", data],
                              stdout=subprocess.PIPE, stderr=subprocess.DEVNULL, text=True, check=True).stdout
        lines = re.findall(r"^ *([0-9.]+%) +(\[.\] .*?)(?: +- +-)? *$", told, re.MULTILINE)
        print("\n".join(f"{percent:>7}  {symbol}" for percent, symbol in lines[:SYMBOLS]) + "\n", flush=True)


def main():
    parser = argparse.ArgumentParser(description=__doc__, formatter_class=argparse.RawDescriptionHelpFormatter)
    parser.add_argument("--features", default="1000,10000,100000")
    parser.add_argument("--repeats", type=int, default=5)
    parser.add_argument("--profile", action="store_true")
    parser.add_argument("program", nargs="?", default=bench.PROGRAM)
    arguments = parser.parse_args()
    if not os.access(arguments.program, os.X_OK):
        sys.exit(f"beside.py: {arguments.program} cannot be run; ./landmap build builds the program")
    with tempfile.TemporaryDirectory() as folder:
        programs = Programs(os.path.abspath(arguments.program), folder)
        if arguments.profile:
            profile(programs)
        else:
            tables(programs, [int(word) for word in arguments.features.split(",")], arguments.repeats)


if __name__ == "__main__":
    main()
