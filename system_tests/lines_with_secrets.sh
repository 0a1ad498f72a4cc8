# Where the configuration has keys, HELLO says a secret: of a server with an end and of one without, and of files that are sent and fetched.
source "$(dirname "$0")/parts.bash"
web_configuration
{ read -r secret && read -r entry; } < <("$program" secret ines)
{ read -r other && read -r second; } < <("$program" secret guest)
sed -i "s/\"anonymous\": \"guest\"/&, \"keys\": [$entry, $second]/" map.json
# greets PATH LINE REPLY: a session that begins with this line, which is answered so.
greets() {
    local told
    told=$(talk "$1" "$2" BYE) || fail "$2: the talk ended with status $?"
    [ "$told" = "$3"$'\n'bye ] || fail "$2: $told"
}
# greeted PATH: HELLO of all kinds.
greeted() {
    greets "$1" "HELLO ines $secret" "hello ines"
    greets "$1" "HELLO ines" "error E2"
    greets "$1" "HELLO ines ${secret}x" "error H1"
    greets "$1" "HELLO ines $other" "error H1"
    greets "$1" "HELLO nobody $secret" "error H1"
    greets "$1" "HELLO ines $secret more" "error E2"
    greets "$1" "HELLO guest $other" "hello guest"
}
server some some.sock --config map.json --connections 7
greeted some.sock
ended some 0
mkfifo input
exec {keeps}<> input
held+=("$keeps")
input=input server one map.sock --config map.json --until-stdin-ends
greeted map.sock
told=$(talk map.sock "COMMIT" "HELLO ines" "HELLO ines $secret" "HELLO ines $secret" "ADD 1 mast POINT (10 20)" COMMIT BYE)
[ "$told" = $'error E5\nerror E2\nhello ines\nerror E6\nstaged\napplied 1\nbye' ] || fail "$told"
# A file is fetched and sent with the secret that the environment has.
status=0
"$program" export --socket map.sock --as ines --format csv > none.csv 2> errors || status=$?
[ "$status" = 1 ] || fail "an export without a secret: status $status"
grep -q 'error E2' errors || fail "it says $(cat errors)"
LANDMAP_SECRET=$secret "$program" export --socket map.sock --as ines --format csv > masts.csv 2> errors || fail "no export: $(cat errors)"
grep -q '^1,' masts.csv || fail "it exports $(cat masts.csv)"
sed 's/^1,/2,/' masts.csv > more.csv
LANDMAP_SECRET=$secret "$program" import --socket map.sock --as ines more.csv > told 2>&1 || fail "no import: $(cat told)"
told=$(talk map.sock "HELLO ines $secret" "SEARCH POINT (10 20)" BYE)
[[ $told == *"rows 2"* ]] || fail "after the import: $told"
exec {keeps}>&-
ended one 0
# Without keys HELLO is believed, and a word behind the name is left over.
sed -i 's/, "keys": \[.*\]\(,\?\)$/\1/' map.json
"$program" check --config map.json > checked 2>&1 || fail "$(cat checked)"
server two two.sock --config map.json --connections 2
greets two.sock "HELLO ines" "hello ines"
greets two.sock "HELLO ines $secret" "error E2"
ended two 0
