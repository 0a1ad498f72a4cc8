# What a server has counted is read by the one subject that the configuration names: of session lines and of HTTP. Nobody else gets it,
# and without that name there is no such page.
source "$(dirname "$0")/parts.bash"
web_configuration
{ read -r secret && read -r entry; } < <("$program" secret ines)
{ read -r other && read -r second; } < <("$program" secret guest)
sed "s/\"anonymous\": \"guest\"/\"anonymous\": \"guest\", \"keys\": [$entry, $second], \"metrics\": \"ines\"/" map.json > counted.json
web_server none none.sock
answers /metrics "404 Not Found" '"code":"U1"'
mv counted.json map.json
[[ $("$program" check --config map.json) == *"metrics are for ines"* ]] || fail "the configuration does not tell of it"
web_server one map.sock
# counts LINE..: these lines stand among the counts.
counts() {
    local line
    get /metrics "Authorization: Bearer ines.$secret"
    [ "$status" = "200 OK" ] || fail "/metrics: $status $body"
    for line in "$@"; do
        grep -qxF "$line" <<< "$body" || fail "no $line in: $body"
    done
}
counts 'landmap_http_requests_total{status="200"} 0' landmap_searches_total\ 0 landmap_records_total\ 0 'landmap_info{version="0.1.0"} 1'
[[ $fields == *"content-type: text/plain; version=0.0.4; charset=utf-8"* ]] || fail "its type: $fields"
told=$(talk map.sock "HELLO ines $secret" "ADD 1 mast POINT (10 20)" COMMIT "ADD 1 mast POINT (10 20)" COMMIT "SEARCH POINT (10 20)" BYE)
[[ $told == *"applied 1"* && $told == *"exists change 1"* ]] || fail "$told"
told=$(talk map.sock "HELLO guest $other" "ADD 2 road LINESTRING (0 0, 4 4)" COMMIT "DELETE 1 1" COMMIT BYE)
answers /collections/mast/items "200 OK" '"numberMatched":1'
answers /nowhere "404 Not Found"
answers /metrics "403 Forbidden" '"code":"metrics"'
get /metrics "Authorization: Bearer ines.x"
[ "$status" = "401 Unauthorized" ] || fail "a wrong secret: $status"
denied=$(grep -c '^denied' <<< "$told")
# One search of lines and one of HTTP, one list applied, one that is there already, and those that the policy denied.
applied=$((1 + $(grep -c '^applied' <<< "$told")))
counts landmap_searches_total\ 2 "landmap_commits_total $applied" "landmap_denied_total $denied" \
    'landmap_http_requests_total{status="200"} 2' 'landmap_http_requests_total{status="401"} 1' \
    'landmap_http_requests_total{status="403"} 1' 'landmap_http_requests_total{status="404"} 1' \
    "landmap_records_total $((2 + applied + denied + 1))" landmap_policies_total\ 0 landmap_commits_held_total\ 0 \
    'landmap_http_request_seconds_bucket{le="+Inf"} 5' landmap_http_request_seconds_count\ 5
# Each of the five took some microseconds at least, and no second.
sum=$(sed -n 's/^landmap_http_request_seconds_sum //p' <<< "$body")
awk -v sum="$sum" 'BEGIN { exit !(sum >= 0.00005 && sum < 5) }' || fail "five requests took ${sum:-no} seconds"
# Its memory is measured: some mebibytes.
bytes=$(sed -n 's/^process_resident_memory_bytes //p' <<< "$body")
((${bytes:-0} > 1048576 && bytes < 1073741824)) || fail "its memory is ${bytes:-not told}"
# Each bucket has those below it, so the numbers rise.
grep '_bucket' <<< "$body" | sed 's/.* //' | sort -nc || fail "the buckets do not rise: $body"
# A policy counts, and its record.
records=$(sed -n 's/^landmap_records_total //p' <<< "$body")
told=$(talk map.sock "HELLO ines $secret" 'POLICY {"root": {"policy": "all", "combine": "permit-unless-deny", "rules": []}}' BYE)
[[ $told == *"edition 2"* ]] || fail "the policy: $told"
counts landmap_policies_total\ 1 "landmap_records_total $((records + 1))"
# A reader that asks for the head alone gets no body.
request HEAD /metrics "" "Authorization: Bearer ines.$secret"
[[ $status == "200 OK" && -z $body ]] || fail "its head: $status $body"
# A name of nobody is told with its place.
sed 's/"metrics": "ines"/"metrics": "nobody"/' map.json > wrong.json
wrong=$("$program" check --config wrong.json 2>&1) && fail "a name of nobody passes"
[[ $wrong == *'B2 at "/metrics"'* ]] || fail "it says $wrong"
