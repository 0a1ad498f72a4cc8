# A configuration that is right, and some that are not: what is told, and the status.
source "$(dirname "$0")/parts.bash"
# checks STATUS TEXT CONFIGURATION
checks() {
    local status=0 said
    printf '%s' "$3" > config.json
    said=$("$program" check --config config.json 2> errors) || status=$?
    [ "$status" = "$1" ] || fail "$3: status $status, not $1"
    [ "$said" = "$2" ] || fail "$3: $said, not $2"
}
policies='{"root":{"policy":"p","combine":"first-applicable","rules":[{"rule":"all","effect":"permit"}]}}'
checks 0 $'subjects 1\nstewards 0\nzones 0\nrules that permit 1\nrules that deny 0' \
    '{"subjects":[{"name":"ines","office":"roads","role":"surveyor"}],"policies":'"$policies"'}'
checks 1 'B1' '{'
checks 1 'B2 at "/subjects/1/name"' \
    '{"subjects":[{"name":"ines","office":"roads","role":"surveyor"},{"office":"roads","role":"surveyor"}],"policies":'"$policies"'}'
checks 1 'N3 at "/subjects/1/name"' \
    '{"subjects":[{"name":"a","office":"o","role":"r"},{"name":"a","office":"o","role":"r"}],"policies":'"$policies"'}'
status=0
"$program" check --config no/such.json > said 2> errors || status=$?
[ "$status" = 1 ] && [ ! -s said ] || fail "a file that is not there: status $status, $(cat said)"
[ "$(cat errors)" = "landmap: cannot read no/such.json" ] || fail "$(cat errors)"
