#!/usr/bin/env bash
# The day at an agency, whose trail is rolled out in three pieces. examples/refill.py brings its features and its policy back from them, once
# as a script and once over a socket; what each subject then finds, and may do, has to be what it found before. A piece that is missing, in the
# wrong place or cut off is refused, and so is a server that has features already.
#   refill.sh PROGRAM      in an empty folder
set -euo pipefail
program=$1
top=$(cd "$(dirname "${BASH_SOURCE[0]}")/.." && pwd)
config=$top/examples/agency.json
command -v python3 > /dev/null || { echo "refill: skipped: there is no python3"; exit 0; }
server=
trap '[ -z "$server" ] || kill "$server" 2> /dev/null || true' EXIT
wrong() { echo "refill: $*"; exit 1; }
refill() { python3 "$top/examples/refill.py" --steward ada "$@"; }

# What is asked of the map before and after: a subject, and its lines.
subjects=(ines max tom pia ada)
questions() {
    echo 'SEARCH POLYGON ((-100 -100, 100 -100, 100 100, -100 100, -100 -100))'
    echo 'EXPLAIN add roads road LINESTRING (30 50, 30 20)'
    echo 'EXPLAIN read parcels parcel POINT (50 44)'
}
asked_by_all() { for name in "${subjects[@]}"; do questions | sed "s/^/$name: /"; done; }

# The day, with a ROLL when the steward comes and two at its end, and one behind the questions: four pieces, of which the third is empty.
{
    grep -v ': BYE$' "$top/examples/agency.map" | sed '/^ada: HELLO ada$/a ada: ROLL'
    asked_by_all
    echo 'ada: ROLL'
} > day.map
"$program" script --config "$config" day.map > day.replies
awk '/^ada: rolled / { piece += 1 } /^ada: ([{]|rolled )/ { sub(/^ada: /, ""); print > ("piece" piece) }' day.replies
[ "$(head -qn 1 piece1 piece2 piece3 piece4 | xargs)" = "rolled 11 rolled 3 rolled 0 rolled 5" ] || wrong "the day is rolled out otherwise"
grep -v '^ada: [{]' day.replies | grep -v ': rolled ' | tail -n 37 > wanted
[ "$(grep -c ': rows ' wanted)" = 5 ] || wrong "the answers at the day's end are not the last 37 lines"

# As a script.
refill piece1 piece2 piece3 piece4 > refill.map
{ grep -v ': BYE$' refill.map; asked_by_all; } > again.map
"$program" script --config "$config" again.map > again.replies
cmp wanted <(tail -n 37 again.replies) || wrong "the script's answers differ"

# Over a socket.
"$program" serve --socket "$PWD/socket" --config "$config" --connections 11 --workers 8 > said 2> warnings < /dev/null &
server=$!
for _ in $(seq 300); do grep -qs listening said && break; sleep 0.1; done
refill --socket "$PWD/socket" piece1 piece2 piece3 piece4
for name in "${subjects[@]}"; do
    { echo "HELLO $name"; questions; echo BYE; } | "$program" connect --socket "$PWD/socket" | sed "s/^/$name: /"
done > served.replies
cmp wanted <(grep -Ev ': (hello [a-z]*|bye)$' served.replies) || wrong "the server's answers differ"
! refill --socket "$PWD/socket" piece1 2> twice || wrong "a server that is not new is refilled"
grep -q '^refill: COMMIT was answered "exists change 1", not "applied 1"' twice || wrong "$(cat twice)"
wait "$server"
server=
grep -q '^closed ' said || wrong "the server did not close"
[ ! -s warnings ] || wrong "the server warned"

# Pieces that are not the whole trail.
for bad in "piece2" "piece2 piece1" "piece1 piece4"; do
    # The words of $bad are files.
    ! refill $bad > bad.map 2> bad.said || wrong "taken: $bad"
    [ ! -s bad.map ] || wrong "lines are written of: $bad"
done
head -n 3 piece1 > cut
! refill cut > bad.map 2> bad.said || wrong "taken: a piece that is cut off"
