# A server without end changes its hall behind 256 MiB of replies too, so that its memory does not grow with them.
source "$(dirname "$0")/parts.bash"
corners=
for ((x = -8; x <= 7; x++)); do
    corners+="$((x * 1000003)) $((x * x * 100003)), "
done
corners+="$((-8 * 1000003)) $((64 * 100003))"
mkfifo input
exec {keeps}<> input
held+=("$keeps")
input=input server one map.sock --workers 2 --until-stdin-ends
{
    echo "HELLO north"
    for ((id = 1; id <= 2048; id++)); do
        echo "ADD $id parcel POLYGON (($corners))"
        [ $((id % 16)) != 0 ] || echo COMMIT
    done
    # Each of these answers has some 600,000 bytes.
    for ((n = 1; n <= 500; n++)); do
        echo "SEARCH POLYGON (($corners))"
    done
    echo BYE
} > lines
"$program" connect --socket map.sock < lines > told || fail "the talk ended with status $?"
[ "$(grep -cx "rows 2048" told)" = 500 ] || fail "not each search is answered: $(grep -c '^rows' told)"
[ "$(wc -c < told)" -gt 268435456 ] || fail "the answers have $(wc -c < told) bytes only"
rm told
# The change begins within a second, and is over within some more.
sleep 3
first=$(talk map.sock "HELLO chief" "SEARCH POINT (-10000000 -10000000)" ROLL BYE | sed -n 's/.*"number":\([0-9]*\),.*/\1/p' | head -n 1)
[ "${first:-0}" -gt 128 ] || fail "the hall was not changed: its first record is ${first:-none}"
lives one || fail "it has ended: $(cat one.err)"
exec {keeps}>&-
ended one 0
told one "listening map.sock" "closed 629 records"
