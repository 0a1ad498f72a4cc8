#!/usr/bin/env python3
"""A client of a landmap server: client.py SOCKET < LINES

Sends the session lines of its standard input, and prints the replies. Programs of your own can import Session."""
import socket
import sys
import time

REPEAT = ("held", "memory", "error S2", "error S7")


class Session:
    """A connection to a server, which is one session. A reply is a list of lines: the first one, and the rows behind it."""

    def __init__(self, path):
        self.peer = socket.socket(socket.AF_UNIX)
        self.peer.connect(path)
        self.replies = self.peer.makefile("r", encoding="ascii", newline="\n")

    def send(self, *lines):
        self.peer.sendall("".join(line + "\n" for line in lines).encode())

    def receive(self):
        """The next reply, whole: behind `rows N` and `rolled N` there are N lines, behind any other first line none."""
        reply = [self.line()]
        word, _, count = reply[0].partition(" ")
        if word in ("rows", "rolled"):
            reply += [self.line() for _ in range(int(count))]
        return reply

    def line(self):
        line = self.replies.readline()
        if not line.endswith("\n"):
            raise ConnectionError("the server is gone: whether the last line was done, a new SEARCH shows")
        return line[:-1]

    def ask(self, line):
        """The reply to a line. Where it may be sent again, it is, some times."""
        for pause in (0.01, 0.1, 1, None):
            self.send(line)
            reply = self.receive()
            if pause is None or not reply[0].startswith(REPEAT):
                return reply
            time.sleep(pause)

    def commit(self, changes):
        """What becomes of a list of up to 16 changes, as ("applied", "7") or ("stale", "5", "change", "1"). They are sent together."""
        self.send(*changes)
        for change, reply in [(change, self.receive()[0]) for change in changes]:
            if reply != "staged":
                raise ValueError(f"{change}: {reply}; the others are staged until `ABORT`")
        return tuple(self.ask("COMMIT")[0].split())


if __name__ == "__main__":
    session = Session(sys.argv[1])
    for line in sys.stdin:
        reply = session.ask(line.rstrip("\n"))
        print("\n".join(reply), flush=True)
        if reply == ["bye"]:
            break
