#!/usr/bin/env bash
# The clients of examples/ talk to a server each, and print what `landmap connect` prints. Where there is no python3, or no cc, that client is
# skipped. The parts of the one in Python that a program would import are called too.
#   clients.sh PROGRAM      in an empty folder
set -euo pipefail
program=$1
top=$(cd "$(dirname "${BASH_SOURCE[0]}")/.." && pwd)
server=
trap '[ -z "$server" ] || kill "$server" 2> /dev/null || true' EXIT
wrong() { echo "clients: $*"; exit 1; }

# serves CONNECTIONS: a server of a socket in this folder.
serves() {
    "$program" serve --socket "$PWD/socket" --connections "$1" > said 2> warnings < /dev/null &
    server=$!
    for _ in $(seq 300); do grep -qs listening said && return; sleep 0.1; done
    wrong "the server does not listen"
}
closes() {
    wait "$server"
    server=
    grep -q '^closed ' said || wrong "the server did not close"
}

# The last line has no end, and nothing behind BYE is sent.
printf '%s\n' 'HELLO chief' 'ADD 1 mast POINT (3 4)' 'ADD 2 road LINESTRING (0 0, 5 5)' COMMIT 'SEARCH POINT (3 3)' \
    'SEARCH POLYGON ((0 0, 9 0, 9 9, 0 9, 0 0))' 'SEARCH POINT (3.5 4)' NONSENSE ROLL ROLL > lines
printf BYE >> lines
cat > wanted <<'W'
hello chief
staged
staged
applied 1
rows 1
2 1 hq road LINESTRING (0 0, 5 5)
rows 2
1 1 hq mast POINT (3 4)
2 1 hq road LINESTRING (0 0, 5 5)
error K4
error E2
rolled 3
{"changes":[{"class":"mast","id":1,"shape":"POINT (3 4)","what":"add"},{"class":"road","id":2,"shape":"LINESTRING (0 0, 5 5)","what":"add"}],"kind":"applied","number":1,"seat":1,"subject":"chief","version":1}
{"ids":[2],"kind":"answered","number":2,"seat":1,"subject":"chief","window":"POINT (3 3)"}
{"ids":[1,2],"kind":"answered","number":3,"seat":1,"subject":"chief","window":"POLYGON ((0 0, 9 0, 9 9, 0 9, 0 0))"}
rolled 0
bye
W

# prints_it COMMAND..: a client that gets the lines, and has to print the replies.
prints_it() {
    serves 1
    timeout 60 "$@" < lines > got || wrong "$1 ended with status $?"
    cmp wanted got || wrong "$1 prints other replies"
    closes
}
prints_it "$program" connect --socket "$PWD/socket"

if command -v cc > /dev/null; then
    cc -std=c11 -Wall -Wextra -Werror -o client "$top/examples/client.c"
    prints_it ./client "$PWD/socket"
    ! ./client "$PWD/socket" < lines > got 2> gone || wrong "the client in C ends well without a server"
else
    echo "clients: the client in C is skipped: there is no cc"
fi

command -v python3 > /dev/null || { echo "clients: the client in Python is skipped: there is no python3"; exit 0; }
prints_it python3 "$top/examples/client.py" "$PWD/socket"
serves 3
PYTHONDONTWRITEBYTECODE=1 PYTHONPATH=$top/examples timeout 60 python3 - "$PWD/socket" <<'P' || wrong "the session in Python is wrong"
import sys
from client import Session

north, south = Session(sys.argv[1]), Session(sys.argv[1])
assert north.ask("HELLO north") == ["hello north"] and south.ask("HELLO south") == ["hello south"]
masts = [f"ADD {number} mast POINT ({number} 0)" for number in range(1, 17)]
assert north.commit(masts) == ("applied", "1")
assert len(north.ask("SEARCH LINESTRING (0 0, 100 0)")) == 17
assert south.commit(["RESHAPE 1 1 POINT (1 1)"]) == ("applied", "2")
assert north.commit(["RESHAPE 1 1 POINT (1 2)", "DELETE 2 1"]) == ("stale", "2", "change", "1")
try:
    north.commit(["DELETE 2 1", "RESHAPE 3 1 POINT (0.5 1)", "DELETE 4 1"])
    assert False, "a shape at fault is staged"
except ValueError as fault:
    assert "error K4" in str(fault), fault
assert north.ask("ABORT") == ["aborted"] and north.ask("SEARCH POINT (2 0)")[0] == "rows 1"
south.send("BYE", "SEARCH POINT (2 0)")
assert south.receive() == ["bye"]
try:
    south.receive()
    assert False, "a line behind BYE is answered"
except ConnectionError:
    pass
assert north.ask("BYE") == ["bye"]
last = Session(sys.argv[1])
assert last.ask("BYE") == ["bye"]
P
closes
