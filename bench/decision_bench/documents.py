#!/usr/bin/env python3
"""Writes policy documents of several kinds into a folder, each kind with 5, 50 and 500 rules.

usage: bench/decision_bench/documents.py FOLDER
"""

import json
import os
import sys

sys.path.insert(0, os.path.dirname(os.path.dirname(os.path.abspath(__file__))))
from zones import zone

SIZES = [5, 50, 500]


def rules(tests):
    """A rule that permits for each of these matches, None being none."""
    return [
        {"effect": "permit", "rule": f"r{number}"} | ({"target": [[[test]]]} if test else {})
        for number, test in enumerate(tests)
    ]


def policy(name, children, combine="first-applicable"):
    return {"policy": name, "combine": combine, "rules": children}


def last_applies(count):
    """The last of so many rules is the first that applies."""
    return rules([{"class": "road"}] * (count - 1) + [{"class": "mast"}])


def flat(count):
    return {"root": policy("p", last_applies(count))}


def deep(count):
    """Seven sets within one another, and the policy in the lowest."""
    node = policy("lowest", last_applies(count))
    for level in range(7):
        node = {"set": f"level{level}", "combine": "deny-overrides", "of": [node]}
    return {"root": node}


def early(count):
    """The first rule settles what the policy decides."""
    return {"root": policy("p", rules([None] * count), "permit-overrides")}


def roles(count):
    """All rules but five are about a role that the subject has not."""
    return {"root": policy("p", rules([{"role": "clerk"}] * (count - 5)) + renamed(last_applies(5)))}


def renamed(children):
    return [rule | {"rule": "own-" + rule["rule"]} for rule in children]


def zones(count):
    """All rules but the last ask for a zone, of up to 64, and the question's shape meets none."""
    known = min(count - 1, 64)
    tests = [{"zone": f"z{number % known}"} for number in range(count - 1)]
    return {"zones": [zone(number) for number in range(known)], "root": policy("p", rules(tests + [None]))}


def main():
    if len(sys.argv) != 2:
        sys.exit(__doc__)
    folder = sys.argv[1]
    os.makedirs(folder, exist_ok=True)
    for kind in [flat, deep, early, roles, zones]:
        for count in SIZES:
            path = os.path.join(folder, f"{kind.__name__}-{count:03}.json")
            with open(path, "w", encoding="utf-8") as file:
                json.dump(kind(count), file, separators=(",", ":"), sort_keys=True)


main()
