#!/usr/bin/env python3
"""Writes policy documents of several kinds into a folder, one file each.

usage: bench/policy_bench/documents.py FOLDER
"""

import json
import os
import sys

sys.path.insert(0, os.path.dirname(os.path.dirname(os.path.abspath(__file__))))
from zones import zone


def rules(count, classes):
    return [
        {"effect": "permit", "rule": f"r{number}", "target": [[[{"class": classes(number)}]]]}
        for number in range(count)
    ]


def only_last(count):
    return lambda number: "mast" if number + 1 == count else "road"


def policy(name, children, combine="first-applicable"):
    return {"policy": name, "combine": combine, "rules": children}


def deep():
    node = policy("lowest", rules(504, only_last(504)))
    for level in range(7):
        node = {"set": f"level{level}", "combine": "deny-overrides", "of": [node]}
    return node


def in_zones():
    return [
        {"effect": "deny", "rule": f"r{number}", "target": [[[{"zone": f"z{number}"}]]]} for number in range(64)
    ]


DOCUMENTS = {
    "small": {"root": policy("p", rules(3, only_last(3)))},
    "flat": {"root": policy("p", rules(512, only_last(512)))},
    "deep": {"root": deep()},
    "zones": {"zones": [zone(number) for number in range(64)], "root": policy("p", in_zones(), "deny-overrides")},
}


def main():
    if len(sys.argv) != 2:
        sys.exit(__doc__)
    folder = sys.argv[1]
    os.makedirs(folder, exist_ok=True)
    for name, document in DOCUMENTS.items():
        with open(os.path.join(folder, name + ".json"), "w", encoding="utf-8") as file:
            json.dump(document, file, separators=(",", ":"), sort_keys=True)


main()
