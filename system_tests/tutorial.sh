#!/usr/bin/env bash
# What docs/TUTORIAL.md shows is so: the day, the questions and the recipes with the replies beside them, the commands with what they print, and
# the three pictures. Skipped where there is no python3.
#   tutorial.sh PROGRAM      in an empty folder
set -euo pipefail
top=$(cd "$(dirname "${BASH_SOURCE[0]}")/.." && pwd)
command -v python3 > /dev/null || { echo "tutorial: skipped: there is no python3"; exit 0; }
ln -s "$1" landmap
ln -s "$top/examples" examples
exec python3 - "$top" <<'P'
import re
import subprocess
import sys

top = sys.argv[1]
page = open(top + "/docs/TUTORIAL.md").read()
PEOPLE = ("ines", "max", "tom", "pia", "ada")


def wrong(what):
    sys.exit("tutorial: " + what)


def said(command, given=""):
    """What a command prints, its last words on standard error included."""
    ran = subprocess.run(command, shell=True, executable="/bin/bash", input=given, text=True, stdout=subprocess.PIPE, stderr=subprocess.PIPE)
    return (ran.stdout + ran.stderr).split("\n")[:-1]


def columns(block):
    """The lines of a block and the replies beside them."""
    parts = [re.match(r"(\S.*?)?(?:^| {2,})(\S.*)$", line).groups() for line in block.strip("\n").split("\n")]
    return [left for left, _ in parts if left], [right for _, right in parts]


def same(shown, real, what):
    """Compares what the page shows with what is so. `TEXT ..` is a line's front, and `..` alone any lines."""
    at = 0
    for number, line in enumerate(shown):
        if line == "..":
            following = shown[number + 1] if number + 1 < len(shown) else None
            while at < len(real) and real[at] != following:
                at += 1
            continue
        front = line[:-3] if line.endswith(" ..") else None
        if at >= len(real) or not (real[at] == line or front and real[at].startswith(front)):
            wrong(f"{what}: the page shows\n  {line}\nand it is\n  {real[at] if at < len(real) else 'nothing'}")
        at += 1
    if at < len(real):
        wrong(f"{what}: the page does not show\n  {real[at]}")


def answers(lines, policy=None):
    """What the program replies to the lines, once everybody has said HELLO and a policy is in force."""
    before = [f"{name}: HELLO {name}" for name in PEOPLE] + ([f"ada: POLICY {policy}"] if policy else [])
    replies = said("./landmap script --config examples/agency.json -", "\n".join(before + lines) + "\n")
    if policy and replies[len(PEOPLE)] != "ada: edition 2":
        wrong(f"a recipe is no policy: {replies[len(PEOPLE)]}")
    return replies[len(before):]


# The day: its lines as they are in the script, and the replies.
day, rest = page.split("## The two pictures")
lines, replies = [], []
for block in re.findall(r"```session\n(.*?)```", day, re.S):
    left, right = columns(block)
    lines += left
    replies += right
script = [line for line in open("examples/agency.map").read().split("\n") if line and line[0] != "#" and not line.endswith(": BYE")]
same(lines, script, "the day's lines")
same(replies, said("./landmap script --config examples/agency.json -", "\n".join(script) + "\n"), "the day's replies")

# The questions, and the recipes behind their documents.
asked = re.findall(r"(?:```json\n(.*?)```\s*)?```session\n(.*?)```", rest, re.S)
if [bool(policy) for policy, _ in asked] != [False, True, True, True, True]:
    wrong("there are other questions or recipes than this test knows")
for policy, block in asked:
    left, right = columns(block)
    same(right, answers(left, policy.replace("\n", "") or None), "questions")

# The commands, each with what it prints.
pictures = rest.split("\n## ")[0]
for command in re.findall(r"^    (\S.*)$", pictures, re.M):
    if said(command):
        wrong("this command prints something: " + command)
for name in ("denied_road.svg", "noon.svg"):
    if open(name).read() != open(f"{top}/docs/{name}").read():
        wrong(f"docs/{name} is another picture than the page's commands make")
# The map from a GIS, without what needs one, or a server.
gis = rest.split("## A map from a GIS\n")[1].split("\n## ")[0]
printed = []
for command in re.findall(r"^    (\S.*)$", gis, re.M):
    if not command.startswith("ogr2ogr ") and "--socket" not in command:
        printed += said(command)
same(re.search(r"```text\n(.*?)\n```", gis, re.S).group(1).split("\n"), printed, "a map from a GIS")
if open("lakeside.svg").read() != open(f"{top}/docs/lakeside.svg").read():
    wrong("docs/lakeside.svg is another picture than the page's commands make")
commands = re.findall(r"^ {8}\$ (.*)\n((?: {8}[^$\n].*\n)*)", rest, re.M)
if len(commands) != 5:
    wrong(f"there are {len(commands)} commands behind a dollar")
for command, shown in commands:
    same([line[8:] for line in shown.split("\n")[:-1]], said(command), command)
P
