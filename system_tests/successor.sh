# A server takes over the path of one that still serves its last session, and keeps it when that one ends.
source "$(dirname "$0")/parts.bash"
server old map.sock --connections 1 --takeover
client first map.sock
ask first "HELLO north" "hello north"
ask first "SEARCH POINT (3 4)" "rows 0"
server new map.sock --connections 1 --takeover
ask first BYE bye
leave first
ended old 0
told old "listening map.sock" "closed 1 records"
[ -S map.sock ] || fail "the path of the new server is gone"
answered map.sock "ADD 1 mast POINT (3 4)" staged
ended new 0
[ ! -e map.sock ] || fail "the path is not free"
