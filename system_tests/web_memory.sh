# A page by HTTP has few features of an answer, and the answer's record all of them: behind 16,777,216 rows of answers a server changes its
# hall, however few bytes were sent, so that its memory does not grow with them.
source "$(dirname "$0")/parts.bash"
web_configuration
mkfifo input
exec {keeps}<> input
held+=("$keeps")
input=input web_server one map.sock --until-stdin-ends
{
    echo "HELLO ines"
    for ((id = 1; id <= 100000; id++)); do
        echo "ADD $id mast POINT ($((id % 1000)) $((id / 1000)))"
        [ $((id % 16)) != 0 ] || echo COMMIT
    done
    echo BYE
} > lines
"$program" connect --socket map.sock < lines > told || fail "the talk ended with status $?"
[ "$(tail -n 2 told)" = $'applied 6250\nbye' ] || fail "the lists were answered otherwise: $(tail -n 2 told)"
for ((n = 1; n <= 200; n++)); do
    get "/collections/mast/items?limit=1"
    [ "$status" = "200 OK" ] || fail "request $n: $status"
done
# The change begins within a second, and is over within some more.
sleep 3
first=$(talk map.sock "HELLO ines" "SEARCH POINT (-10000000 -10000000)" ROLL BYE | sed -n 's/.*"number":\([0-9]*\),.*/\1/p' | head -n 1)
[ "${first:-0}" -gt 6250 ] || fail "the hall was not changed: its first record is ${first:-none}"
lives one || fail "it has ended: $(cat one.err)"
exec {keeps}>&-
ended one 0
