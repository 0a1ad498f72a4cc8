# A server that is stopped and continued, as by ctrl-Z and fg, goes on where it was, also with --idle: no session ends by that, and
# staged lists stay.
source "$(dirname "$0")/parts.bash"
server one map.sock --connections 2 --idle 20
client first map.sock
ask first "HELLO north" "hello north"
ask first "ADD 1 mast POINT (3 4)" staged
client second map.sock
for round in 1 2 3; do
    sleep 0.1
    kill -STOP "${started[one]}" && sleep 0.1 && kill -CONT "${started[one]}"
done 2> /dev/null
for client in first second; do
    lives "$client" || fail "$client has ended: $(cat "$client.err" one.err)"
done
ask first COMMIT "applied 1"
ask second "HELLO south" "hello south"
ask second "SEARCH POINT (3 4)" "rows 1" "1 1 north mast POINT (3 4)"
ask first BYE bye
ask second BYE bye
ended one 0
[ ! -s one.err ] || fail "it warns: $(cat one.err)"
