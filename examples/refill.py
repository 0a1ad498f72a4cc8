#!/usr/bin/env python3
"""Fills a new server, or a script, with the features of an earlier one, from the pieces that its stewards rolled out.

  refill.py [--steward NAME] PIECE.. > SCRIPT           writes a script: run it by `landmap script --config FILE SCRIPT`
  refill.py [--steward NAME] --socket PATH PIECE..      sends the same lines to a server that has just begun

A PIECE is a file with the replies to ROLL, as `landmap connect` writes them; give all pieces, from record 1 on, in their order.
Each list that was applied is committed again, each policy put in force again by the steward (`chief` if no other is named), in the
order of the records. The configuration has to be that of the earlier server: then each list gets its old version. Nothing is sent where a
record is missing; the first reply that is another one than before ends the command with status 1. Over a socket each subject has a
connection of its own, open to the end: give the server as many workers as the pieces have subjects, and one more for the steward."""
import argparse
import json
import socket
import sys


def records(paths):
    """The records of the pieces, each looked at for whether one is missing before it."""
    number = promised = 0
    for path in paths:
        with open(path, encoding="ascii") as piece:
            for line in piece:
                if "{" in line:
                    record = json.loads(line[line.index("{"):])
                    number += 1
                    if record["number"] != number:
                        sys.exit(f"refill: {path}: record {record['number']} stands where {number} is wanted")
                    yield record
                elif "rolled " in line:
                    promised += int(line.split()[-1])
        if promised not in (0, number):
            sys.exit(f"refill: {path}: the pieces so far promise {promised} records, and have {number}")


def lines_of(record, steward):
    """Who says what to bring a record about, and the last line's reply; nobody says anything for a search or a refusal."""
    if record["kind"] == "governed":
        return steward, ["POLICY " + json.dumps(record["document"], separators=(",", ":"))], f"edition {record['edition']}"
    if record["kind"] != "applied":
        return None, [], ""
    words = {"add": "ADD {id} {class} {shape}", "reshape": "RESHAPE {id} {version} {shape}", "delete": "DELETE {id} {version}"}
    lines = [words[change["what"]].format(**change) for change in record["changes"]]
    return record["subject"], lines + ["COMMIT"], f"applied {record['version']}"


def send(peer, lines, last):
    """Sends lines of one reply line each, and ends the command where the last reply is another one than `last`."""
    peer.write("".join(line + "\n" for line in lines))
    peer.flush()
    replies = [peer.readline().rstrip("\n") for _ in lines]
    if replies[-1] != last:
        sys.exit(f"refill: {lines[-1]} was answered \"{replies[-1]}\", not \"{last}\", after {'; '.join(lines[:-1]) or 'nothing'}")


def main():
    words = argparse.ArgumentParser(description=__doc__, formatter_class=argparse.RawDescriptionHelpFormatter)
    words.add_argument("--steward", default="chief", metavar="NAME")
    words.add_argument("--socket", metavar="PATH")
    words.add_argument("pieces", nargs="+", metavar="PIECE")
    asked = words.parse_args()
    steps = [step for record in records(asked.pieces) if (step := lines_of(record, asked.steward))[1]]
    sessions = {}
    for subject, lines, last in steps:
        if subject not in sessions:
            sessions[subject] = None
            if asked.socket:
                peer = socket.socket(socket.AF_UNIX)
                peer.connect(asked.socket)
                sessions[subject] = peer.makefile("rw", encoding="ascii", newline="\n")
                send(sessions[subject], [f"HELLO {subject}"], f"hello {subject}")
            else:
                print(f"{subject}: HELLO {subject}")
        if asked.socket:
            send(sessions[subject], lines, last)
        else:
            print("".join(f"{subject}: {line}\n" for line in lines), end="")
    for subject, peer in sessions.items():
        if asked.socket:
            send(peer, ["BYE"], "bye")
        else:
            print(f"{subject}: BYE")


try:
    main()
except (OSError, ValueError, KeyError) as fault:
    sys.exit(f"refill: {type(fault).__name__}: {fault}")
