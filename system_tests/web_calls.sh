# The policy is asked and put in force by HTTP, and the trail is taken out.
source "$(dirname "$0")/parts.bash"
web_configuration
{ read -r secret && read -r entry; } < <("$program" secret ines)
{ read -r other && read -r second; } < <("$program" secret guest)
sed "s/\"anonymous\": \"guest\"/&, \"keys\": [$entry, $second]/" map.json > keys.json
mv keys.json map.json
mkfifo input
exec {keeps}<> input
held+=("$keeps")
input=input web_server one map.sock --until-stdin-ends
ines="Authorization: Bearer ines.$secret"
json="Content-Type: application/json"
point='%7B%22type%22%3A%22Point%22%2C%22coordinates%22%3A%5B7.0000010%2C46.0000020%5D%7D'
# asked STATUS TEXT METHOD TARGET BODY [FIELD..]: such a request has this status, and a body with this text.
asked() {
    request "${@:3}"
    [ "${status%% *}" = "$1" ] || fail "$3 $4: $status, not $1: $body"
    [[ $body == *"$2"* ]] || fail "$3 $4 has no $2: $body"
}
# question ACTION CLASS: the address of a question about a feature of the roads at the point.
question() {
    printf '/explain?action=%s&office=roads&class=%s&geometry=%s' "$1" "$2" "$point"
}
# The policy says to each what it permits them.
asked 200 '{"decision":"permit","rule":"everybody-reads-masts","edition":1}' GET "$(question read mast)" ""
asked 200 '{"decision":"deny","rule":null,"edition":1}' GET "$(question reshape mast)" ""
asked 200 '{"decision":"permit","rule":"own-features","edition":1}' GET "$(question reshape mast)" "" "$ines"
asked 400 '"code":"U4"' GET "/explain?action=read&office=roads&class=mast" ""
asked 400 '"code":"U2"' GET "$(question read mast)&limit=1" ""
asked 400 '"code":"U3"' GET "$(question read mast)&class=mast" ""
asked 405 '"code":"method"' POST /explain "" "$ines"
# A steward puts another one in force.
policy='{"root":{"policy":"all","combine":"first-applicable","rules":[{"rule":"everybody-does-all","effect":"permit"}]}}'
asked 403 '"code":"X7"' PUT /policy "$policy" "$json"
asked 415 '"code":"media"' PUT /policy "$policy" "$ines"
asked 400 '"code":"D1"' PUT /policy '{"root":' "$ines" "$json"
asked 422 '"code":"D2","place":"/root"' PUT /policy '{"root":1}' "$ines" "$json"
asked 403 '"code":"origin"' PUT /policy "$policy" "$ines" "$json" "Origin: https://elsewhere.example"
asked 200 '{"edition":2}' PUT /policy "$policy" "$ines" "$json; charset=utf-8"
asked 200 '{"decision":"permit","rule":"everybody-does-all","edition":2}' GET "$(question reshape mast)" ""
told=$(talk map.sock "HELLO guest $other" "EXPLAIN reshape roads mast POINT (10 20)" BYE)
[[ $told == *"permit rule everybody-does-all edition 2"* ]] || fail "a session is told: $told"
# A steward takes the trail out, fetches it, and lets it go; nobody else does.
asked 403 '"code":"X7"' POST /trail ""
asked 403 '"code":"origin"' POST /trail "" "$ines" "Origin: https://elsewhere.example"
asked 400 '"code":"U2"' POST "/trail?now" "" "$ines"
asked 201 '{"piece":1,"records":' POST /trail "" "$ines"
records=${body#*'"records":'}
records=${records%\}*}
[ "$records" = 1 ] || fail "$records records of one policy"
asked 200 '"edition":2' GET /trail/1 "" "$ines"
[ "$(grep -c '^{.*}$' <<< "$body")" = "$records" ] || fail "not $records lines: $body"
asked 404 '"code":"absent"' GET /trail/1 ""
asked 404 '"code":"absent"' DELETE /trail/1 ""
asked 404 '"code":"absent"' GET /trail/2 "" "$ines"
asked 405 '"code":"method"' GET /trail "" "$ines"
for piece in 2 3 4; do
    asked 201 "{\"piece\":$piece,\"records\":0}" POST /trail "" "$ines"
done
asked 409 '"code":"pieces"' POST /trail "" "$ines"
asked 204 '' DELETE /trail/2 "" "$ines"
asked 404 '"code":"absent"' DELETE /trail/2 "" "$ines"
asked 201 '{"piece":5,"records":0}' POST /trail "" "$ines"
exec {keeps}>&-
ended one 0
[ ! -s one.err ] || fail "it warns: $(head -n 3 one.err)"
