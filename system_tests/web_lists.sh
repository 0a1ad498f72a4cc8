# A list of changes by HTTP is made whole or not at all, as the policy permits, and its first fault is told with its place.
source "$(dirname "$0")/parts.bash"
web_configuration
{ read -r secret && read -r entry; } < <("$program" secret ines)
denying='{"rule": "guests-add-nothing", "effect": "deny", "target": [[[{"action": "add"}]]], "when": [{"role": "guest"}]}'
sed "s/{\"rule\": \"own-features\"/$denying, &/; s/\"anonymous\": \"guest\"/&, \"keys\": [$entry]/" map.json > keys.json
mv keys.json map.json
mkfifo input
exec {keeps}<> input
held+=("$keeps")
input=input web_server one map.sock --until-stdin-ends
ines="Authorization: Bearer ines.$secret"
json="Content-Type: application/json"
# add ID LATITUDE: a mast is added at this latitude.
add() {
    printf '{"action":"add","feature":{"type":"Feature","id":%s,"geometry":{"type":"Point","coordinates":[7.0000010,%s]},"properties":{"class":"mast"}}}' "$1" "$2"
}
# reshape ID VERSION LATITUDE: a mast is moved to this latitude.
reshape() {
    printf '{"action":"reshape","id":%s,"version":%s,"geometry":{"type":"Point","coordinates":[7.0000010,%s]}}' "$1" "$2" "$3"
}
# delete ID VERSION: a feature is deleted.
delete() {
    printf '{"action":"delete","id":%s,"version":%s}' "$1" "$2"
}
# listed STATUS TEXT CHANGES [FIELD..]: a request with these changes has this status, and a body with this text.
listed() {
    request POST /transactions "{\"changes\":[$3]}" "${@:4}"
    [ "${status%% *}" = "$1" ] || fail "$3: $status, not $1: $body"
    [[ $body == *"$2"* ]] || fail "$3 has no $2: $body"
}
listed 200 '"changes":2}' "$(add 7 46.0000020),$(add 8 46.0000030)" "$ines" "$json"
first=${body#\{\"version\":}
first=${first%%,*}
[ "$body" = "{\"version\":$first,\"changes\":2}" ] || fail "what was done: $body"
answers /collections/mast/items "200 OK" '"numberMatched":2' '"id":7' '"id":8'
# Nothing of a list is made where one of its changes cannot be.
listed 409 "\"code\":\"stale\",\"current\":$first,\"change\":2" "$(reshape 7 "$first" 46.0000040),$(delete 8 99)" "$ines" "$json"
listed 409 '"code":"exists","change":3' "$(reshape 7 "$first" 46.0000040),$(add 9 46.0000050),$(add 8 46.0000050)" "$ines" "$json"
listed 409 '"code":"absent","change":1' "$(delete 70 1),$(delete 8 "$first")" "$ines" "$json"
listed 403 '"code":"denied","rule":"guests-add-nothing","change":1' "$(add 9 46.0000050)" "$json"
listed 403 '"code":"denied","rule":null,"change":1' "$(delete 7 "$first")" "$json"
answers /collections/mast/items "200 OK" '"numberMatched":2' '"coordinates":[7.0000010,46.0000020]' '"coordinates":[7.0000010,46.0000030]'
# What is no list, in the order in which it is looked for.
listed 415 '"code":"media"' "" "$ines" "Content-Type: application/geo+json"
listed 422 '"code":"E7","place":"/changes"' "" "$ines" "$json"
listed 422 '"code":"X6","place":"/changes"' "0,1,2,3,4,5,6,7,8,9,10,11,12,13,14,15,16" "$ines" "$json"
listed 400 '"code":"J1","place":""' "{" "$ines" "$json"
listed 400 '"code":"J2","place":"/changes/1/action"' "$(delete 8 "$first"),{}" "$ines" "$json"
listed 400 '"code":"M2","place":"/changes/1/geometry/coordinates/1"' "$(delete 8 "$first"),$(reshape 7 "$first" 46.00000005)" "$ines" "$json"
listed 422 '"code":"class","place":"/changes/0/feature/properties/class"' '{"action":"add","feature":{"type":"Feature","id":9,"geometry":{"type":"Point","coordinates":[7,46]}}}' "$ines" "$json"
listed 422 '"code":"X5","place":"/changes/1"' "$(delete 8 "$first"),$(reshape 8 "$first" 46.0000040)" "$ines" "$json"
request POST "/transactions?x=1" '{"changes":[]}' "$ines" "$json"
[[ $status == 400* && $body == *'"code":"U2"'* ]] || fail "with a query: $status $body"
# A list that adds, moves and deletes.
listed 200 '"changes":3}' "$(delete 8 "$first"),$(reshape 7 "$first" 46.0000060),$(add 9 46.0000070)" "$ines" "$json"
answers /collections/mast/items "200 OK" '"numberMatched":2' '"id":7' '"id":9' '"coordinates":[7.0000010,46.0000060]'
told=$(talk map.sock "HELLO ines $secret" "SEARCH POINT (10 60)" BYE)
[[ $told == *"POINT (10 60)"* ]] || fail "a session does not find it: $told"
# The same list once more does nothing twice.
listed 409 '"code":"absent","change":1' "$(delete 8 "$first"),$(reshape 7 "$first" 46.0000060),$(add 9 46.0000070)" "$ines" "$json"
exec {keeps}>&-
ended one 0
[ ! -s one.err ] || fail "it warns: $(head -n 3 one.err)"
