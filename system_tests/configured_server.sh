# A server has the subjects, offices, roles and first policies of its configuration, and no others.
source "$(dirname "$0")/parts.bash"
cat > office.json <<'JSON'
{"subjects": [
   {"name": "ines", "office": "roads", "role": "surveyor"},
   {"name": "tom", "office": "parcels", "role": "registrar"},
   {"name": "ada", "office": "parcels", "role": "clerk", "steward": true}],
 "policies": {"root": {"policy": "offices", "combine": "first-applicable", "rules": [
   {"rule": "own-features", "effect": "permit", "when": [{"own": true}]},
   {"rule": "registrars-read", "effect": "permit", "target": [[[{"action": "read"}]]], "when": [{"role": "registrar"}]}]}}}
JSON
server one map.sock --connections 4 --config office.json
# session LINE.. -- REPLY..
session() {
    local lines=() told
    while [ "$1" != -- ]; do
        lines+=("$1")
        shift
    done
    shift
    told=$(talk map.sock "${lines[@]}") || fail "${lines[*]}: status $?"
    [ "$told" = "$(printf '%s\n' "$@")" ] || fail "${lines[*]}: $told"
}
session "HELLO north" BYE -- "error H1" bye
session "HELLO ines" "ADD 1 mast POINT (3 4)" COMMIT "SEARCH POINT (3 4)" ROLL BYE -- \
    "hello ines" staged "applied 1" "rows 1" "1 1 roads mast POINT (3 4)" "error X7" bye
session "HELLO tom" "SEARCH POINT (3 4)" "RESHAPE 1 1 POINT (5 5)" COMMIT "EXPLAIN read roads mast POINT (3 4)" BYE -- \
    "hello tom" "rows 1" "1 1 roads mast POINT (3 4)" staged "denied none change 1" "permit rule registrars-read edition 1" bye
session "HELLO ada" "SEARCH POINT (3 4)" 'POLICY {"root":{"policy":"p","combine":"first-applicable","rules":[{"rule":"all","effect":"permit"}]}}' \
    "SEARCH POINT (3 4)" BYE -- "hello ada" "rows 0" "edition 2" "rows 1" "1 1 roads mast POINT (3 4)" bye
ended one 0
told one "listening map.sock" "closed 7 records"
