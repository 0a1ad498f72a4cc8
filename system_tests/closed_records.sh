# The last line tells the records of the trail, also those that were rolled out, and not the sessions.
source "$(dirname "$0")/parts.bash"
server one map.sock --connections 3
answered map.sock "SEARCH POINT (3 4)" "rows 0"
talked=$(talk map.sock "HELLO chief" "ADD 1 mast POINT (3 4)" COMMIT "SEARCH POINT (3 4)" ROLL BYE) || fail "$talked"
[ "$(sed -n 5,6p <<< "$talked")" = $'1 1 hq mast POINT (3 4)\nrolled 3' ] || fail "$talked"
client last map.sock
ask last "HELLO south" "hello south"
ask last "SEARCH POINT (0 0)" "rows 0"
ask last "SEARCH POINT (3 4)" "rows 1" "1 1 hq mast POINT (3 4)"
told one "listening map.sock"
ask last BYE bye
ended one 0
told one "listening map.sock" "closed 5 records"
