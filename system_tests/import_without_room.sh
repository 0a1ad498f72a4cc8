# An import ends where the server has no room for more features, and keeps what is settled; once there is room the same command goes on behind
# that, and says so. A secret that is none is told before anything is sent.
source "$(dirname "$0")/parts.bash"
{
    echo WKT,id,class
    for ((id = 1; id <= 24; id++)); do echo "POINT ($id 0),$id,mast"; done
} > rows.csv
server one map.sock --connections 5 --features 20
# imports STATUS ERRORS: the import ends with this status, and these lines on standard error.
imports() {
    local status=0
    "$program" import --socket map.sock --as north rows.csv > totals 2> errors || status=$?
    [ "$status" = "$1" ] || fail "an import has status $status, not $1: $(cat errors)"
    [ "$(cat errors)" = "$2" ] || fail "an import says $(cat errors), not $2"
}
status=0
LANDMAP_SECRET="two words" "$program" import --socket map.sock --as north rows.csv > totals 2> errors || status=$?
[ "$status" = 1 ] && [ "$(cat errors)" = "landmap: LANDMAP_SECRET is no secret, or cannot be read" ] || fail "two words: $status, $(cat errors)"
[ ! -e rows.csv.done ] || fail "with two words $(cat rows.csv.done) rows are settled"
imports 1 "landmap: the server cannot go on"
[ "$(cat rows.csv.done)" = 16 ] || fail "$(cat rows.csv.done) rows are settled, not 16"
[ ! -s totals ] || fail "it tells $(cat totals)"
imports 1 $'landmap: goes on behind row 16, as rows.csv.done says\nlandmap: the server cannot go on'
talk map.sock "HELLO north" "DELETE 1 1" "DELETE 2 1" "DELETE 3 1" "DELETE 4 1" COMMIT BYE > said || fail "no room is made: status $?"
[ "$(sed -n 6p said)" = "applied 2" ] || fail "no room is made: $(cat said)"
imports 0 "landmap: goes on behind row 16, as rows.csv.done says"
[ "$(cat totals)" = $'rows 24\napplied 8\npresent 0\nrefused 0' ] || fail "totals: $(cat totals)"
[ "$(cat rows.csv.done)" = 24 ] || fail "$(cat rows.csv.done) rows are settled, not 24"
told=$(talk map.sock "HELLO north" "SEARCH LINESTRING (0 0, 100 0)" BYE)
[ "$(sed -n 2p <<< "$told")" = "rows 20" ] || fail "the server has $told"
ended one 0
