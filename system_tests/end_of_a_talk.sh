# A talk writes its last reply, whether it ends with its input, with a line that has no end, or behind BYE.
source "$(dirname "$0")/parts.bash"
server one map.sock --connections 4
printf 'HELLO north' | "$program" connect --socket map.sock > last || fail "a line without an end: status $?"
[ "$(cat last)" = "hello north" ] || fail "a line without an end: $(cat last)"
[ "$(talk map.sock "HELLO north" "SEARCH POINT (3 4)")" = $'hello north\nrows 0' ] || fail "no BYE"
[ "$(talk map.sock "HELLO north" BYE "HELLO south")" = $'hello north\nbye' ] || fail "something behind BYE"
talk map.sock "HELLO north" "SEARCH POINT (3 4)" BYE | cat > piped
[ "$(cat piped)" = $'hello north\nrows 0\nbye' ] || fail "into a pipe: $(cat piped)"
ended one 0
status=0
talk map.sock "HELLO north" > said 2> errors || status=$?
[ "$status" = 1 ] && [ "$(cat errors)" = "landmap: cannot connect map.sock" ] || fail "nobody listens: $status, $(cat errors)"
