# A talk whose input cannot be read ends with V1, one whose replies cannot be written with `cannot write`; the server goes on behind both. The
# statuses are the same where standard error cannot be written. A line that is too long is E1, and the session goes on behind it.
source "$(dirname "$0")/parts.bash"
server one map.sock --connections 4
status=0
"$program" connect --socket map.sock < . > said 2> errors || status=$?
[ "$status" = 1 ] && [ "$(cat errors)" = "landmap: V1" ] || fail "a folder as input: status $status, $(cat errors)"
status=0
talk map.sock "HELLO north" "ADD 1 mast POINT (3 4)" > /dev/full 2> errors || status=$?
[ "$status" = 1 ] && [ "$(cat errors)" = "landmap: cannot write" ] || fail "a full disk: status $status, $(cat errors)"
# A policy of 65,536 bytes, one of 65,537, and one whose last byte is a return, which does not count.
policy='POLICY {"root":{"policy":"all","combine":"permit-unless-deny","rules":[]}}'
{
    printf 'HELLO chief\r\n'
    printf '%-65536s\n%-65537s\n%-65536s\r\n' "$policy" "$policy" "$policy"
    head -c 300000 /dev/zero | tr '\0' x
    printf '\n\nEXPLAIN read hq mast POINT (3 4)\nBYE'
} > lines
"$program" connect --socket map.sock < lines > said || fail "long lines: status $?"
[ "$(cat said)" = $'hello chief\nedition 2\nerror E1\nedition 3\nerror E1\nerror E2\npermit none edition 3\nbye' ] || fail "long lines: $(cat said)"
answered map.sock "SEARCH POINT (3 4)" "rows 0"
ended one 0
# ends STATUS WORD..: the same status with standard error on a full disk, and without one.
ends() {
    local wanted=$1 status=0
    shift
    "$program" "$@" < /dev/null > said 2> /dev/full || status=$?
    [ "$status" = "$wanted" ] || fail "$*: status $status, not $wanted"
    status=0
    "$program" "$@" < /dev/null > said 2>&- || status=$?
    [ "$status" = "$wanted" ] || fail "$* without standard error: status $status, not $wanted"
}
echo '{' > wrong.json
ends 1 connect --socket map.sock
ends 1 script no.map
ends 1 check --config wrong.json
ends 1 serve --socket no/map.sock --connections 1
ends 1 store check nowhere
ends 2 serve
ends 0 --help
