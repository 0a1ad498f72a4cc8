# A server with --http answers requests beside sessions of lines: what a subject may read, and what is not there; it ends with its input.
source "$(dirname "$0")/parts.bash"
web_configuration
mkfifo input
exec {keeps}<> input
held+=("$keeps")
input=input web_server one map.sock --until-stdin-ends
answers / "200 OK" '"title":"landmap"' "http://127.0.0.1:$port/collections"
answers /conformance "200 OK" "ogcapi-features-1/1.0/conf/core"
answers /collections "200 OK" '"id":"features"' '"id":"mast"' '"id":"road"'
answers /collections/mast/items "200 OK" '"numberMatched":0'
told=$(talk map.sock "HELLO ines" "ADD 1 mast POINT (10 20)" "ADD 2 mast POINT (30 20)" "ADD 3 road LINESTRING (0 0, 40 40)" COMMIT BYE)
[ "$(tail -n 2 <<< "$told")" = $'applied 1\nbye' ] || fail "$told"
answers /collections/mast/items "200 OK" '"numberMatched":2' '"coordinates":[7.0000010,46.0000020]' '"version":1'
answers /collections/road/items "200 OK" '"numberMatched":0'
answers "/collections/features/items?limit=1" "200 OK" '"numberMatched":2' '"numberReturned":1' '"rel":"next"' "kept="
[[ $body =~ kept=([0-9]+) ]] || fail "no number: $body"
answers "/collections/features/items?kept=${BASH_REMATCH[1]}&after=1&limit=1" "200 OK" '"id":2' '"numberReturned":1'
answers "/collections/mast/items?bbox=7.0000009,46,7.0000011,47" "200 OK" '"numberMatched":1' '"id":1'
answers /collections/mast/items/2 "200 OK" '"id":2'
[[ $fields == *'etag: "1"'* ]] || fail "no tag: $fields"
get /collections/mast/items/2 'If-None-Match: "1"'
[ "$status" = "304 Not Modified" ] || fail "a known feature: $status"
answers /collections/road/items/3 "404 Not Found" '"code":"absent"'
answers /nowhere "404 Not Found" '"code":"U1"'
answers "/collections/mast/items?limit=x" "400 Bad Request"
answers /map "200 OK" "<!DOCTYPE html>"
exec {keeps}>&-
ended one 0
told one "listening map.sock" "listening http://127.0.0.1:$port" "closed $(sed -n 's/^closed \(.*\) records$/\1/p' one.out) records"
[ ! -s one.err ] || fail "it warns: $(head -n 3 one.err)"
