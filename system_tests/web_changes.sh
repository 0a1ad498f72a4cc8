# Features are added, moved and deleted by HTTP, as the policy permits: by who has a secret, and of the version that was seen.
source "$(dirname "$0")/parts.bash"
web_configuration
{ read -r secret && read -r entry; } < <("$program" secret ines)
denying='{"rule": "guests-add-nothing", "effect": "deny", "target": [[[{"action": "add"}]]], "when": [{"role": "guest"}]}'
sed "s/{\"rule\": \"own-features\"/$denying, &/; s/\"anonymous\": \"guest\"/&, \"keys\": [$entry]/" map.json > keys.json
mv keys.json map.json
mkfifo input
exec {keeps}<> input
held+=("$keeps")
input=input web_server one map.sock --until-stdin-ends
ines="Authorization: Bearer ines.$secret"
json="Content-Type: application/geo+json"
items=/collections/features/items
# mast ID LATITUDE: a mast at this latitude.
mast() {
    printf '{"type":"Feature","id":%s,"geometry":{"type":"Point","coordinates":[7.0000010,%s]},"properties":{"class":"mast"}}' "$1" "$2"
}
# asked STATUS TEXT METHOD TARGET BODY [FIELD..]: such a request has this status, and a body with this text.
asked() {
    request "${@:3}"
    [ "${status%% *}" = "$1" ] || fail "$3 $4: $status, not $1: $body"
    [[ $body == *"$2"* ]] || fail "$3 $4 has no $2: $body"
}
# tag: the entity tag of the last answer.
tag() {
    local tag=${fields#*etag: }
    printf '%s' "${tag%%$'\n'*}"
}
asked 201 "" POST $items "$(mast 7 46.0000020)" "$ines" "$json"
[[ $fields == *"location: http://127.0.0.1:$port$items/7"$'\n'* ]] || fail "where it is: $fields"
[ -z "$body" ] || fail "a body: $body"
first=$(tag)
answers $items/7 "200 OK" '"coordinates":[7.0000010,46.0000020]' '"office":"roads"'
[ "$(tag)" = "$first" ] || fail "the tag is $(tag), not $first"
asked 201 "" POST /collections/mast/items "$(mast 8 46.0000030)" "$ines" "$json; charset=utf-8"
asked 409 '"code":"exists"' POST $items "$(mast 8 46.0000030)" "$ines" "$json"
asked 403 '"code":"denied","rule":"guests-add-nothing"' POST $items "$(mast 9 46.0000030)" "$json"
asked 415 '"code":"media"' POST $items "$(mast 9 46.0000030)" "$ines" "Content-Type: text/plain"
asked 400 '"code":"J1"' POST $items '{"type":' "$ines" "$json"
asked 400 '"code":"M2","place":"/geometry/coordinates/1"' POST $items "$(mast 9 46.00000005)" "$ines" "$json"
asked 422 '"code":"class"' POST /collections/road/items "$(mast 9 46.0000030)" "$ines" "$json"
asked 403 '"code":"origin"' POST $items "$(mast 9 46.0000030)" "$ines" "$json" "Origin: https://elsewhere.example"
asked 404 '"code":"absent"' GET $items/9 ""
# It is moved; who has seen the version before does not move it back.
asked 428 '"code":"version"' PUT $items/7 "$(mast 7 46.0000040)" "$ines" "$json"
asked 204 "" PUT $items/7 "$(mast 7 46.0000040)" "$ines" "$json" "If-Match: $first"
second=$(tag)
[ "$second" != "$first" ] || fail "moved, and yet of the version $first"
asked 412 "\"code\":\"stale\",\"current\":${second//\"/}" PUT $items/7 "$(mast 7 46.0000050)" "$ines" "$json" "If-Match: $first"
[ "$(tag)" = "$second" ] || fail "the present tag is told as $(tag), not $second"
asked 204 "" PATCH $items/7 "$(mast 7 46.0000060)" "$ines" "Content-Type: application/merge-patch+json" "If-Match: $second"
third=$(tag)
answers $items/7 "200 OK" '"coordinates":[7.0000010,46.0000060]' '"class":"mast"'
told=$(talk map.sock "HELLO ines $secret" "SEARCH POINT (10 60)" BYE)
[[ $told == *"POINT (10 60)"* ]] || fail "a session does not find it: $told"
# It is deleted, by who may.
asked 405 '"code":"method"' DELETE /collections/mast/items/7 "" "$ines" "If-Match: $third"
asked 403 '"code":"denied","rule":null' DELETE $items/7 "" "If-Match: $third"
asked 204 "" DELETE $items/7 "" "$ines" "If-Match: $third"
asked 404 '"code":"absent"' DELETE $items/7 "" "$ines" "If-Match: $third"
answers /collections/mast/items "200 OK" '"numberMatched":1' '"id":8'
exec {keeps}>&-
ended one 0
[ ! -s one.err ] || fail "it warns: $(head -n 3 one.err)"
