"""What the programs of this folder share: servers with a store, sessions, and what a store keeps as text."""
import json
import random
import socket
import subprocess
import time

SIZE = 10_000_000

# A little of everything that is kept, and what is refused, of the subject chief.
POLICY = '{"root":{"policy":"open","combine":"deny-unless-permit","rules":[{"rule":"all","effect":"permit"}]}}'
LINES = ["HELLO chief", f"POLICY {POLICY}",
          "ADD 1 mast POINT (3 4)", "ADD 2 road LINESTRING (0 0, 5 5)", "ADD 18446744073709551615 parcel POLYGON ((0 0, 9 0, 9 9, 0 0))", "COMMIT",
          "SEARCH POINT (3 4)", "RESHAPE 1 1 POINT (-3 4)", "COMMIT", "DELETE 2 1", "COMMIT", "DELETE 2 1", "COMMIT", "SEARCH POINT (3 4)",
          *[line for number in range(10, 13) for line in (f"ADD {number} mast POINT ({number} 7)", "COMMIT")]]


def point(chance):
    return f"POINT ({chance.randint(-SIZE, SIZE)} {chance.randint(-SIZE, SIZE)})"


class Gone(Exception):
    """The server has gone away."""


class Session:
    """A session, behind its HELLO."""

    def __init__(self, path, name="north", patience=None):
        self.socket = socket.socket(socket.AF_UNIX, socket.SOCK_STREAM)
        self.socket.settimeout(patience)
        self.socket.connect(path)
        self.lines = self.socket.makefile("r", encoding="ascii", newline="\n")
        self.ask(f"HELLO {name}", 1)

    def send(self, text):
        try:
            self.socket.sendall((text + "\n").encode("ascii"))
        except OSError as fault:
            raise Gone() from fault

    def hear(self):
        try:
            line = self.lines.readline()
        except OSError as fault:
            raise Gone() from fault
        if not line.endswith("\n"):
            raise Gone()
        return line[:-1]

    def ask(self, text, replies):
        self.send(text)
        return [self.hear() for _ in range(replies)]

    def rows(self, window):
        """What a search lists: ids and versions."""
        count = int(self.ask(f"SEARCH {window}", 1)[0].removeprefix("rows "))
        return dict(tuple(int(word) for word in self.hear().split(" ", 2)[:2]) for _ in range(count))

    def close(self):
        self.socket.close()


EVERYTHING = f"POLYGON (({-SIZE} {-SIZE}, {SIZE} {-SIZE}, {SIZE} {SIZE}, {-SIZE} {SIZE}, {-SIZE} {-SIZE}))"


def serve(program, path, *words, log=subprocess.DEVNULL, before=()):
    """Starts a server, and waits until it listens. Returns it and how long that took; none where it ends at once."""
    begun = time.monotonic()
    server = subprocess.Popen([*before, program, "serve", "--socket", path, "--takeover", *words], stdout=subprocess.PIPE, stderr=log, text=True)
    line = server.stdout.readline()
    if line != f"listening {path}\n":
        server.wait()
        return None, time.monotonic() - begun
    return server, time.monotonic() - begun


def load(path, features, first=1, seed=1):
    """Adds so many points in random places, by lists of sixteen, four lists at a time."""
    chance, session = random.Random(seed), Session(path)
    lines = []
    for number in range(first, first + features):
        lines.append(f"ADD {number} mast {point(chance)}")
        if (number - first) % 16 == 15 or number == first + features - 1:
            lines.append("COMMIT")
        if (number - first) % 64 == 63 or number == first + features - 1:
            for line, reply in zip(lines, session.ask("\n".join(lines), len(lines))):
                assert reply == "staged" or line == "COMMIT" and reply.startswith("applied "), reply
            lines = []
    session.ask("BYE", 1)


def text_of(program, folder):
    """The records and the features of a store that is closed, as text."""
    told = [subprocess.run([program, "store", "export", *words, folder], stdout=subprocess.PIPE, check=True).stdout
            for words in ([], ["--features"])]
    return tuple(told)


def features_behind(records):
    """The ids, with the versions, that so many first records have led to."""
    features = {}
    for line in records:
        record = json.loads(line)
        for change in record["changes"] if record["kind"] == "applied" else []:
            if change["what"] == "delete":
                del features[change["id"]]
            else:
                features[change["id"]] = record["version"]
    return features
