#!/usr/bin/env python3
"""Many connections, one after another, to one server without an end.

    bench/endless/connections.py [--connections 1000000] PROGRAM

Four processes connect, say HELLO, search, say BYE and go, each so often that all make the number. Prints how long it took, and the memory of
the server behind the first tenth and at the end. Exits with 1 where a reply is another one than it should be, or `closed R records` is wrong.
"""
import argparse
import multiprocessing
import os
import socket
import subprocess
import sys
import tempfile
import time

from endless import memory, wanted

LINES = {name: f"HELLO {name}\nSEARCH POINT (-9999 -9999)\nBYE\n".encode() for name in ("north", "south", "chief")}
REPLIES = {name: f"hello {name}\nrows 0\nbye\n".encode() for name in LINES}


def come(path, connections, done):
    names = sorted(LINES)
    for turn in range(connections):
        name = names[turn % len(names)]
        with socket.socket(socket.AF_UNIX) as stream:
            stream.connect(path)
            stream.sendall(LINES[name])
            told = b""
            while len(told) < len(REPLIES[name]):
                more = stream.recv(4_096)
                if not more:
                    break
                told += more
            if told != REPLIES[name]:
                print(f"connection {turn}: {told!r}")
                os._exit(1)
        if turn % 1_000 == 999:
            with done.get_lock():
                done.value += 1_000


def main():
    options = argparse.ArgumentParser()
    options.add_argument("program")
    options.add_argument("--connections", type=int, default=1_000_000)
    given = options.parse_args()
    path = os.path.join(tempfile.mkdtemp(), "socket")
    words = [given.program, "serve", "--socket", path, "--workers", "8", "--until-stdin-ends"]
    server = subprocess.Popen(words, stdin=subprocess.PIPE, stdout=subprocess.PIPE)
    wanted(server.stdout.readline().decode().strip(), "listening " + path)
    done = multiprocessing.Value("q", 0)
    each = given.connections // 4
    clients = [multiprocessing.Process(target=come, args=(path, each, done)) for _ in range(4)]
    start = time.time()
    for client in clients:
        client.start()
    while done.value < given.connections // 10 and any(client.is_alive() for client in clients):
        time.sleep(0.1)
    early = memory(server)
    for client in clients:
        client.join()
    took, late = time.time() - start, memory(server)
    server.stdin.close()
    told = server.stdout.readline().decode().strip()
    print(f"{4 * each} connections in {took:.0f} s; {early} MiB behind the first tenth, {late} MiB at the end; {told}")
    sys.exit(0 if told == f"closed {4 * each} records" and all(client.exitcode == 0 for client in clients) else 1)


if __name__ == "__main__":
    main()
