# A socket that a killed server has left is taken over under the lock of its folder: while somebody else has that, nothing is replaced, and
# once it is free the path is. Skipped where there is no flock.
source "$(dirname "$0")/parts.bash"
command -v flock > /dev/null || { echo "locked_folder: skipped: there is no flock"; exit 0; }
mkdir run
server killed run/map.sock --connections 1
kill -KILL "${started[killed]}"
ended killed 137 2> /dev/null
left=$(stat -c '%i %Y' run/map.sock)
exec {lock}< run
held+=("$lock")
flock -n "$lock" || fail "the folder is locked"
began=${EPOCHREALTIME/[.,]/}
begin one serve --socket run/map.sock --connections 1 --takeover
ended one 1
waited=$((${EPOCHREALTIME/[.,]/} - began))
complains one "landmap: cannot bind run/map.sock"
[ ! -s one.out ] || fail "it tells $(cat one.out)"
[ "$waited" -ge 900000 ] || fail "it has asked for the lock for $waited microseconds only"
[ "$(stat -c '%i %Y' run/map.sock)" = "$left" ] || fail "the socket was replaced"
# One that waits for the lock gets it when it is let go.
begin two serve --socket run/map.sock --connections 1 --takeover
exec {lock}<&-
await is_listening two
told two "listening run/map.sock"
answered run/map.sock "SEARCH POINT (3 4)" "rows 0"
ended two 0
[ ! -e run/map.sock ] || fail "the path is not free"
