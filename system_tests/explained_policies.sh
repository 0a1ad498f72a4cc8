# By policies of many rules EXPLAIN says in a server what it says in a script, however often it is asked, before and after POLICY.
source "$(dirname "$0")/parts.bash"
cat > office.json <<'JSON'
{"subjects": [
   {"name": "ines", "office": "roads", "role": "surveyor"},
   {"name": "ada", "office": "parcels", "role": "clerk", "steward": true}],
 "policies": {"root": {"policy": "offices", "combine": "first-applicable", "rules": [
   {"rule": "own-features", "effect": "permit", "when": [{"own": true}]}]}}}
JSON
# policy NUMBER: forty rules about classes, one about a field as wide as the number says, one about who owns a feature.
policy() {
    local rules="" class
    for class in {1..40}; do
        rules+="{\"rule\":\"class-$class\",\"effect\":\"deny\",\"when\":[{\"class\":\"c$class\"},{\"not\":{\"office\":\"roads\"}}]},"
    done
    rules+="{\"rule\":\"field-$1\",\"effect\":\"deny\",\"when\":[{\"zone\":\"field\"},{\"class\":\"mast\"}]},"
    rules+="{\"rule\":\"own-$1\",\"effect\":\"permit\",\"when\":[{\"own\":true}]}"
    echo "POLICY {\"zones\":[{\"zone\":\"field\",\"shape\":\"POLYGON ((0 0, $1 0, $1 9, 0 9, 0 0))\"}],"\
"\"root\":{\"policy\":\"p\",\"combine\":\"first-applicable\",\"rules\":[$rules]}}"
}
# Each question twice, of all actions, offices and classes, in the field and out of it.
questions() {
    local round action office class x
    for round in 1 2; do
        for action in read add delete; do
            for office in roads parcels; do
                for class in mast c7 pier; do
                    for x in 1 15 25; do echo "EXPLAIN $action $office $class POINT ($x 3)"; done
                done
            done
        done
    done
}
{
    echo "HELLO ada"
    questions
    policy 10
    questions
    policy 20
    policy 30
    questions
    echo BYE
} > ada.lines
{
    echo "HELLO ines"
    questions
    echo BYE
} > ines.lines
(sed 's/^/ada: /' ada.lines && sed 's/^/ines: /' ines.lines) > both.map
"$program" script --config office.json both.map > both.out || fail "the script ended with status $?"
# Of one worker, so that both ask the same view.
server one map.sock --connections 2 --workers 1 --config office.json
for name in ada ines; do
    sed -n "s/^$name: //p" both.out > "$name.wanted"
    "$program" connect --socket map.sock < "$name.lines" > "$name.said" || fail "connect ended with status $?"
    cmp "$name.wanted" "$name.said" || fail "a server says to $name: $(diff "$name.wanted" "$name.said" | head -n 5)"
done
[ "$(grep -c '^permit rule own-30 edition 4$' ines.said)" -gt 10 ] || fail "a server says $(cat ines.said)"
ended one 0
