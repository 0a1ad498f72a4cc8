# The policy that a steward has put in force outlives a server that is killed, with its edition, also where the next configuration has another
# one, which is told; but the subjects are those of the next configuration. Of records only those of one's own life are counted at the end.
source "$(dirname "$0")/parts.bash"
# configuration SUBJECT RULE: two subjects, of whom the second is a steward, and one rule that permits all.
configuration() {
    printf '{"subjects":[{"name":"%s","office":"roads","role":"surveyor"},{"name":"ada","office":"hq","role":"clerk","steward":true}],' "$1"
    printf '"policies":{"root":{"policy":"p","combine":"first-applicable","rules":[{"rule":"%s","effect":"permit"}]}}}\n' "$2"
}
configuration ines first > one.json
configuration tom second > two.json
mkdir store
policy='POLICY {"root":{"policy":"q","combine":"first-applicable","rules":[{"rule":"masts","effect":"permit","when":[{"class":"mast"}]}]}}'
server one map.sock --store store --config one.json
complains one "landmap: store store: life 1, 0 features, edition 1, next record 1"
[[ $(cat one.err) != *"policy of the store"* ]] || fail "a new store has the policy of no configuration: $(cat one.err)"
told=$(talk map.sock "HELLO ines" "ADD 1 mast POINT (3 4)" COMMIT "EXPLAIN add hq road POINT (3 4)" BYE)
[ "$told" = $'hello ines\nstaged\napplied 1\npermit rule first edition 1\nbye' ] || fail "the first life says $told"
client ada map.sock
ask ada "HELLO ada" "hello ada"
ask ada "$policy" "edition 2"
kill -KILL "${started[one]}"
ended one 137 2> /dev/null
server two map.sock --store store --config two.json --connections 2 --takeover
complains two "landmap: store store: life 2, 1 features, edition 2, next record 3"
complains two "landmap: the policy of the store is in force, not that of the configuration"
told=$(talk map.sock "HELLO ines" "HELLO tom" "EXPLAIN add hq road POINT (3 4)" "EXPLAIN add hq mast POINT (3 4)" "SEARCH POINT (3 4)" BYE)
[ "$told" = $'error H1\nhello tom\ndenied none edition 2\npermit rule masts edition 2\nrows 1\n1 1 roads mast POINT (3 4)\nbye' ] ||
    fail "the second life says $told"
told=$(talk map.sock "HELLO ada" "${policy/masts/more}" ROLL BYE)
[ "$(sed -n 2,3p <<< "$told")" = $'edition 3\nrolled 2' ] || fail "the steward is told $told"
[[ $told == *'"number":3,'*'"number":4,'* ]] || fail "the numbers of the records do not go on: $told"
ended two 0
told two "listening map.sock" "closed 2 records"
