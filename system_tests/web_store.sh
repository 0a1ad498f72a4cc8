# What a server with a store has answered by HTTP is there after it is killed: each feature that was added, moved and deleted.
source "$(dirname "$0")/parts.bash"
web_configuration
{ read -r secret && read -r entry; } < <("$program" secret ines)
sed "s/\"anonymous\": \"guest\"/&, \"keys\": [$entry]/" map.json > keys.json
mv keys.json map.json
mkdir store
ines="Authorization: Bearer ines.$secret"
json="Content-Type: application/geo+json"
items=/collections/features/items
mast() {
    printf '{"type":"Feature","id":%s,"geometry":{"type":"Point","coordinates":[7.0000010,46.0000020]},"properties":{"class":"mast"}}' "$1"
}
for ((life = 1; life <= 4; life++)); do
    web_server "life$life" map.sock --store store --takeover
    answers /collections/mast/items "200 OK" "\"numberMatched\":$((life - 1))"
    request POST $items "$(mast "$life")" "$ines" "$json"
    [ "$status" = "201 Created" ] || fail "it is not added: $status $body"
    kill -KILL "${started[life$life]}"
    wait "${started[life$life]}" 2> /dev/null
    unset "started[life$life]"
done
web_server last map.sock --store store --takeover
answers /collections/mast/items "200 OK" '"numberMatched":4'
