#!/usr/bin/env python3
"""How long nobody is answered when a server without an end changes its hall.

    bench/endless/pause.py [--features 100000] [--searches 66000] [--store DIR] PROGRAM

Adds point features, lets four clients make so many searches each that find nothing (a hall has 262,144 records), and meanwhile searches
every 5 ms from a client of its own. Prints the middle and the longest of its waits, the greatest memory, and that five seconds behind all.
"""
import argparse
import os
import statistics
import subprocess
import tempfile
import threading
import time

from endless import Count, Talk, fill, memory, wanted


def hurry(path, searches):
    """Searches that find nothing, sent five hundred at a time."""
    talk = Talk(path)
    wanted(talk.ask("HELLO south"), "hello south")
    for _ in range(searches // 500):
        talk.send("SEARCH POINT (-9999 -9999)\n" * 500)
        for _ in range(500):
            wanted(talk.line(), "rows 0")
    wanted(talk.ask("BYE"), "bye")


def main():
    options = argparse.ArgumentParser()
    options.add_argument("program")
    options.add_argument("--features", type=int, default=100_000)
    options.add_argument("--searches", type=int, default=66_000)
    options.add_argument("--store")
    given = options.parse_args()
    path = os.path.join(tempfile.mkdtemp(), "socket")
    words = [given.program, "serve", "--socket", path, "--workers", "8", "--until-stdin-ends"]
    if given.store:
        words += ["--store", given.store]
    server = subprocess.Popen(words, stdin=subprocess.PIPE, stdout=subprocess.PIPE)
    wanted(server.stdout.readline().decode().strip(), "listening " + path)
    fill(path, given.features, Count())
    threads = [threading.Thread(target=hurry, args=(path, given.searches)) for _ in range(4)]
    for thread in threads:
        thread.start()
    talk = Talk(path)
    wanted(talk.ask("HELLO north"), "hello north")
    waits, most = [], 0
    behind = None
    while behind is None or time.time() < behind:
        start = time.time()
        wanted(talk.ask("SEARCH POINT (-9998 -9998)"), "rows 0")
        waits.append(time.time() - start)
        most = max(most, memory(server))
        if behind is None and not any(thread.is_alive() for thread in threads):
            behind = time.time() + 5
        time.sleep(0.005)
    now = memory(server)
    wanted(talk.ask("BYE"), "bye")
    server.stdin.close()
    told = server.stdout.readline().decode().strip()
    print(f"{given.features} features, {told}: middle {statistics.median(waits) * 1e6:.0f} us, longest {max(waits) * 1e3:.0f} ms; "
          f"{most} MiB at most, {now} MiB behind all")


if __name__ == "__main__":
    main()
