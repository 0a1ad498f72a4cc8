# What --takeover takes, and what it leaves alone.
source "$(dirname "$0")/parts.bash"
# turned_down PATH OPTION..: a server that cannot bind the path.
turned_down() {
    begin other serve --socket "$@" --connections 1
    ended other 1
    [ "$(cat other.err)" = "landmap: cannot bind $1" ] || fail "other says: $(cat other.err)"
    [ ! -s other.out ] || fail "other told $(cat other.out)"
}
server killed map.sock --connections 1
kill -KILL "${started[killed]}"
ended killed 137 2> /dev/null
turned_down map.sock
server one map.sock --connections 3 --takeover
# Somebody listens there now. To find that out uses up a connection.
turned_down map.sock --takeover
turned_down map.sock
answered map.sock "SEARCH POINT (3 4)" "rows 0"
answered map.sock "SEARCH POINT (3 4)" "rows 0"
ended one 0
[ ! -e map.sock ] || fail "the path is not free"
echo kept > plain
turned_down plain --takeover
[ "$(cat plain)" = kept ] || fail "a plain file is gone"
mkdir folder
turned_down folder --takeover
ln -s nowhere link
turned_down link --takeover
[ -L link ] || fail "a link is gone"
turned_down no/such/folder.sock --takeover
