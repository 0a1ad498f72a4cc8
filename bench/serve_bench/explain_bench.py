#!/usr/bin/env python3
"""Times EXPLAIN over the socket of `landmap serve`, beside a server in C that answers as many bytes, in the same run.

    bench/serve_bench/explain_bench.py [--seconds 2] [--rules 5,50,500] [--clients 1,4,16] [PROGRAM]

Each row: questions a second and the 50th percentile in microseconds while nobody else asks anything, the same while another
client commits without pause, and both as a ratio to the answering server's, which is alone.
"""
import argparse
import json
import os
import subprocess
import tempfile

TOP = os.path.dirname(os.path.dirname(os.path.dirname(os.path.abspath(__file__))))
HERE = os.path.dirname(os.path.abspath(__file__))


def document(rules):
    """A policy of so many rules, of which the last one applies."""
    made = [{"effect": "deny", "rule": f"r{number}", "target": [[[{"role": "visitor"}]]]} for number in range(1, rules)]
    made.append({"effect": "permit", "rule": "last"})
    return {"root": {"combine": "first-applicable", "policy": "p", "rules": made}}


def started(program, folder, rules):
    """A server whose policy has so many rules, and its socket."""
    config, path = os.path.join(folder, f"{rules}.json"), os.path.join(folder, f"{rules}.sock")
    subjects = [{"name": name, "office": name, "role": "editor", "steward": False} for name in ("north", "south")]
    with open(config, "w", encoding="ascii") as file:
        json.dump({"subjects": subjects, "policies": document(rules)}, file)
    server = subprocess.Popen([program, "serve", "--socket", path, "--config", config, "--connections", "1024", "--workers", "32"],
                              stdout=subprocess.PIPE, text=True)
    assert server.stdout.readline() == f"listening {path}\n"
    return server, path


def asker(folder, path, count, seconds, batch, file, hello):
    return subprocess.Popen([os.path.join(folder, "asker"), path, str(count), str(seconds), str(batch), file, *hello],
                            stdout=subprocess.PIPE, text=True)


def figures(process):
    """Requests a second, the 50th and the 99th percentile, and the mean bytes of a reply."""
    out, _ = process.communicate()
    return [float(word) for word in out.split()]


def written(folder, name, lines):
    file = os.path.join(folder, name)
    with open(file, "w", encoding="ascii") as out:
        out.write("\n".join(lines) + "\n")
    return file


def answered(folder, count, seconds, file, size):
    """The same, asked of the answering server."""
    path = os.path.join(folder, "answerer.sock")
    if os.path.exists(path):
        os.remove(path)
    server = subprocess.Popen([os.path.join(folder, "answerer"), path, str(max(1, round(size)))], stdout=subprocess.PIPE, text=True)
    server.stdout.readline()
    times = figures(asker(folder, path, count, seconds, 1, file, []))
    server.kill()
    server.wait()
    return times


def main():
    parser = argparse.ArgumentParser(description=__doc__, formatter_class=argparse.RawDescriptionHelpFormatter)
    parser.add_argument("--seconds", type=float, default=2)
    parser.add_argument("--rules", default="5,50,500")
    parser.add_argument("--clients", default="1,4,16")
    parser.add_argument("program", nargs="?", default=os.path.join(TOP, "crates", "landmap", "out", "landmap"))
    arguments = parser.parse_args()
    folder = tempfile.mkdtemp()
    for name in ("answerer", "asker"):
        subprocess.run(["cc", "-O2", "-pthread", "-o", os.path.join(folder, name), os.path.join(HERE, name + ".c")], check=True)
    questions = written(folder, "questions", ["EXPLAIN add north mast POINT (3 4)"])
    # One feature comes and goes, each by a list of its own, and the versions are counted on.
    lists = written(folder, "lists", [line for version in range(1, 400_000, 2)
                                      for line in ("ADD 1 mast POINT (3 4)", "COMMIT", f"DELETE 1 {version}", "COMMIT")])
    for rules in [int(word) for word in arguments.rules.split(",")]:
        server, path = started(arguments.program, folder, rules)
        for count in [int(word) for word in arguments.clients.split(",")]:
            rate, middle, late, size = figures(asker(folder, path, count, arguments.seconds, 1, questions, ["HELLO north"]))
            committing = asker(folder, path, 1, arguments.seconds + 1, 2, lists, ["HELLO south"])
            beside_rate, beside, beside_late, _ = figures(asker(folder, path, count, arguments.seconds, 1, questions, ["HELLO north"]))
            commits = figures(committing)[0] / 2
            echo_rate, echo, echo_late, _ = answered(folder, count, arguments.seconds, questions, size)
            print(f"{rules:3} rules, {count:2} clients: {rate:9.0f} a second, {middle:7.1f} us; beside {commits:6.0f} commits a second "
                  f"{beside_rate:9.0f}, {beside:7.1f} us; in C {echo_rate:9.0f}, {echo:7.1f} us; "
                  f"ratios {middle / echo:4.2f}, {beside / echo:4.2f}; slower by {100 * (beside / middle - 1):4.1f} %")
        server.kill()
        server.wait()


main()
