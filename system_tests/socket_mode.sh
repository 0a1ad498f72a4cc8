# The owner and the group may connect, and nobody else.
source "$(dirname "$0")/parts.bash"
umask 0
server one map.sock --connections 1
mode=$(stat -c %a map.sock)
[ "$mode" = 660 ] || fail "the socket has the mode $mode"
answered map.sock "SEARCH POINT (3 4)" "rows 0"
ended one 0
