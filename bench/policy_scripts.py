#!/usr/bin/env python3
"""Times searches of a script under policies of few and of many rules, about owners, classes and zones.

    bench/policy_scripts.py PROGRAM [--features N] [--offices N] [--classes N] [--rules 5,500] [--runs N] [--instructions]

Each feature is a point of one of some offices and some classes; rules come in 50 policies at most, under deny-overrides, so that none is left
early, and all documents permit the same rows. Prints the microseconds of the processor that a search takes: the difference of two runs, of
which one has but the first searches of each office, each the least of some. Those first ones, under a new policy, take longer: of each kind of
features what the policy leaves open is kept then. With --instructions the thousands of instructions of a search are counted (valgrind), which
are the same on a busy machine. Needs Python 3, and valgrind for that.
"""
import argparse
import json
import math
import random
import re
import resource
import subprocess
import tempfile

FIELD = 10_000_000


def zone(number):
    """A square; those of different numbers below 64 lie apart."""
    x, y = number % 8 * 2_000_000 - 8_000_000, number // 8 * 2_000_000 - 8_000_000
    ring = [(x, y), (x + 1_500_000, y), (x + 1_500_000, y + 1_500_000), (x, y + 1_500_000), (x, y)]
    return {"zone": f"z{number}", "shape": "POLYGON ((" + ", ".join(f"{a} {b}" for a, b in ring) + "))"}


def document(rules, offices, classes, dice):
    """A policy of so many rules. The first permits everything; the denials are about a class that no feature has."""
    policies, made, each = [], 0, max(5, math.ceil(rules / 50))
    while made < rules:
        members = []
        for number in range(made, min(rules, made + each)):
            denies = dice.random() < 0.2
            tests = [{"owner": dice.choice(offices)}, {"class": "secret" if denies else dice.choice(classes)}]
            if number % 3 == 2:
                tests.append({"zone": f"z{dice.randrange(8)}"})
            rule = {"rule": f"r{number}", "effect": "deny" if denies else "permit", "target": [[tests]]}
            members.append(rule if number else {"rule": "all", "effect": "permit"})
        made += len(members)
        policies.append({"policy": f"p{len(policies)}", "combine": "deny-overrides", "rules": members})
    return {"zones": [zone(number) for number in range(8)], "root": {"set": "root", "combine": "deny-overrides", "of": policies}}


def loading(features, offices, classes, dice):
    """The lines that add the features, by lists of sixteen of each office."""
    lines, staged = [f"s{seat}: HELLO s{seat}" for seat in range(len(offices))], [0] * len(offices)
    for number in range(1, features + 1):
        seat = dice.randrange(len(offices))
        x, y = dice.randrange(-FIELD, FIELD), dice.randrange(-FIELD, FIELD)
        lines.append(f"s{seat}: ADD {number} {dice.choice(classes)} POINT ({x} {y})")
        staged[seat] += 1
        if staged[seat] == 16:
            lines.append(f"s{seat}: COMMIT")
            staged[seat] = 0
    return lines + [f"s{seat}: COMMIT" for seat, count in enumerate(staged) if count]


def searches(count, share, offices, dice):
    """So many searches of windows that take this share of the field."""
    side = int(2 * FIELD * math.sqrt(share))
    for number in range(count):
        x, y = dice.randrange(-FIELD, FIELD - side), dice.randrange(-FIELD, FIELD - side)
        ring = f"{x} {y}, {x + side} {y}, {x + side} {y + side}, {x} {y + side}, {x} {y}"
        yield f"s{number % len(offices)}: SEARCH POLYGON (({ring}))"


def seconds(program, config, lines, runs):
    """The least time of the processor that a script of these lines took."""
    with tempfile.NamedTemporaryFile("w", suffix=".map") as script:
        script.write("\n".join(lines) + "\n")
        script.flush()
        times = []
        for _ in range(runs):
            before = resource.getrusage(resource.RUSAGE_CHILDREN)
            subprocess.run([program, "script", "--config", config, script.name], stdout=subprocess.DEVNULL, check=True)
            after = resource.getrusage(resource.RUSAGE_CHILDREN)
            times.append(after.ru_utime + after.ru_stime - before.ru_utime - before.ru_stime)
    return min(times)


def instructions(program, config, lines):
    """The thousands of instructions that a script of these lines took."""
    with tempfile.NamedTemporaryFile("w", suffix=".map") as script:
        script.write("\n".join(lines) + "\n")
        script.flush()
        words = ["valgrind", "--tool=callgrind", "--callgrind-out-file=/dev/null", program, "script", "--config", config, script.name]
        said = subprocess.run(words, stdout=subprocess.DEVNULL, stderr=subprocess.PIPE, text=True, check=True).stderr
        return int(re.search(r"Collected : (\d+)", said)[1]) / 1000


def main():
    parser = argparse.ArgumentParser()
    parser.add_argument("program")
    parser.add_argument("--features", type=int, default=100_000)
    parser.add_argument("--offices", type=int, default=8)
    parser.add_argument("--classes", type=int, default=10)
    parser.add_argument("--rules", default="5,500")
    parser.add_argument("--runs", type=int, default=3)
    parser.add_argument("--instructions", action="store_true")
    args = parser.parse_args()
    offices = [f"office-{number}" for number in range(args.offices)]
    classes = [f"class-{number}" for number in range(args.classes)]
    subjects = [{"name": f"s{seat}", "office": office, "role": "surveyor"} for seat, office in enumerate(offices)]
    for rules in map(int, args.rules.split(",")):
        with tempfile.NamedTemporaryFile("w", suffix=".json") as config:
            policies = document(rules, offices, classes, random.Random(1))
            json.dump({"subjects": subjects, "policies": policies}, config)
            config.flush()
            load = loading(args.features, offices, classes, random.Random(2))
            load += searches(20 * len(offices), 0.0001, offices, random.Random(4))
            if args.instructions:
                loaded = instructions(args.program, config.name, load)
            else:
                loaded = seconds(args.program, config.name, load, args.runs)
            for share, count in ((0.001, 400), (0.01, 40)) if args.instructions else ((0.001, 1_500), (0.01, 150)):
                lines = load + list(searches(count, share, offices, random.Random(3)))
                if args.instructions:
                    took = (instructions(args.program, config.name, lines) - loaded) / count
                    told = f"{took:9.1f} thousand instructions a search (loading {loaded / 1000:.0f} millions)"
                else:
                    took = (seconds(args.program, config.name, lines, args.runs) - loaded) / count * 1e6
                    told = f"{took:9.1f} us a search (loading {loaded:.2f} s)"
                print(f"{rules:4} rules, {share:.1%} of the features: {told}", flush=True)


if __name__ == "__main__":
    main()
