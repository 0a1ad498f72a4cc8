# A request that has a secret asks as its subject; without one it is nobody's, and with a wrong one it is refused. What is kept for one
# subject no other gets. A proxy's field is not believed where no proxy is.
source "$(dirname "$0")/parts.bash"
web_configuration
{ read -r secret && read -r entry; } < <("$program" secret ines)
sed "s/\"anonymous\": \"guest\"/\"keys\": [$entry]/" map.json > keys.json
mv keys.json map.json
mkfifo input
exec {keeps}<> input
held+=("$keeps")
input=input web_server one map.sock --until-stdin-ends
told=$(talk map.sock "HELLO ines $secret" "ADD 1 mast POINT (10 20)" "ADD 2 road LINESTRING (0 0, 40 40)" COMMIT BYE)
[ "$(tail -n 2 <<< "$told")" = $'applied 1\nbye' ] || fail "$told"
basic=$(printf 'ines:%s' "$secret" | base64 -w 0)
# asked FIELD STATUS TEXT: the whole collection of roads is asked for with this field.
asked() {
    get "/collections/road/items" "$1"
    [ "$status" = "$2" ] || fail "$1: $status, not $2"
    [[ $body == *"$3"* ]] || fail "$1: $body"
}
asked "Authorization: Basic $basic" "200 OK" '"numberMatched":1'
[[ $fields == *"vary: authorization"* && $fields == *"cache-control: private, no-cache"* ]] || fail "of whom it is: $fields"
asked "Authorization: Bearer ines.$secret" "200 OK" '"numberMatched":1'
asked "Accept: */*" "401 Unauthorized" '"code":"H1"'
[[ $fields == *'www-authenticate: Basic realm="landmap", charset="UTF-8"'* ]] || fail "no challenge: $fields"
asked "Authorization: Bearer ines.${secret}x" "401 Unauthorized" '"code":"H1"'
asked "Authorization: Bearer guest.$secret" "401 Unauthorized" '"code":"H1"'
asked "landmap-subject: ines" "400 Bad Request" '"code":"field"'
get "/collections/features/items?limit=1" "Authorization: Basic $basic"
[[ $body == *'"numberMatched":2'* && $body =~ kept=([0-9]+) ]] || fail "a first page: $body"
kept=${BASH_REMATCH[1]}
get "/collections/features/items?kept=$kept&after=1&limit=1" "Authorization: Basic $basic"
[[ $status == "200 OK" && $body == *'"id":2'* ]] || fail "a further page: $status $body"
get "/collections/features/items?kept=$kept&after=1&limit=1"
[ "$status" = "410 Gone" ] || fail "a page of another subject: $status"
exec {keeps}>&-
ended one 0
[ ! -s one.err ] || fail "it warns: $(head -n 3 one.err)"
# What a proxy says is believed on a Unix socket alone.
sed "s/\"keys\": \[.*\]/\"trusted-field\": true/" map.json > trusted.json
status=0
"$program" serve --socket two.sock --config trusted.json --http 127.0.0.1:8080 > two.out 2> two.err || status=$?
[ "$status" = 1 ] || fail "a trusted field at an address: status $status"
grep -q 'trusted-field' two.err || fail "it says $(cat two.err)"
[ ! -e two.sock ] || fail "it has bound a socket"
