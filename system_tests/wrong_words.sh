# Wrong command lines: the status, and what is said.
source "$(dirname "$0")/parts.bash"
# says STATUS TEXT WORD..
says() {
    local status=$1 text=$2 got=0
    shift 2
    "$program" "$@" > said 2>&1 < /dev/null || got=$?
    [ "$got" = "$status" ] || fail "$*: status $got, not $status"
    grep -qF -- "$text" said || fail "$*: $(cat said), not $text"
}
says 2 "Usage: landmap <COMMAND>"
says 0 "Usage: landmap <COMMAND>" --help
for command in script serve connect check draw secret man completions; do
    says 0 "Usage: landmap $command" "$command" --help
done
says 2 "error: " scripts
says 2 "--socket <PATH>" connect
says 2 "--socket <PATH>" serve --connections 1
says 2 "error: " serve --socket map.sock --connections 0
says 2 "error: " serve --socket map.sock --connections 1025
says 2 "error: " serve --socket map.sock --connections 1 --workers 1025
says 2 "error: " serve --socket map.sock --connections 1 --idle 0
says 2 "error: " serve --socket map.sock --connections 1 --idle 86401
says 2 "<NAME>" secret
says 2 "invalid value 'Ines'" secret Ines
says 2 "invalid value 'tcsh'" completions tcsh
says 2 "not UTF-8" script $'\xff'
says 1 "landmap: cannot read no/such.map" script no/such.map
says 1 "landmap: cannot connect map.sock" connect --socket map.sock
says 1 "landmap: cannot read no/such.json" serve --socket map.sock --connections 1 --config no/such.json
says 1 "landmap: B1" script --config /dev/null no/such.map
says 1 "landmap: cannot bind no/such/map.sock" serve --socket no/such/map.sock --connections 1
[ ! -e map.sock ] || fail "a server was started"
