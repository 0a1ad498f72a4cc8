# With --idle 1 a client that takes nothing of its replies is left, and the server goes on. A server without end does the same as one of
# three connections.
source "$(dirname "$0")/parts.bash"
corners=
for ((x = -8; x <= 7; x++)); do
    corners+="$((x * 1000003)) $((x * x * 100003)), "
done
corners+="$((-8 * 1000003)) $((64 * 100003))"
{
    echo "HELLO north"
    for ((id = 1; id <= 2048; id++)); do
        echo "ADD $id parcel POLYGON (($corners))"
        [ $((id % 16)) != 0 ] || echo COMMIT
    done
    echo BYE
} > lines

# leaves NAME OPTION..: serves a client that takes nothing of its replies, and leaves it.
leaves() {
    local name=$1 deaf=deaf.$1
    shift
    server "$name" "$name.sock" --workers 1 --idle 1 "$@"
    "$program" connect --socket "$name.sock" < lines > added
    [ "$(grep -c '^applied ' added)" = 128 ] || fail "$name: not all is added: $(tail -n 3 added)"
    client "$deaf" "$name.sock"
    ask "$deaf" "HELLO north" "hello north"
    # The answer has some 600,000 bytes, more than all buffers on the way hold, and nobody reads it.
    say "$deaf" "SEARCH POLYGON (($corners))"
    await grep -q "a session ended by V2" "$name.err" || fail "$name: the client that takes nothing is not left"
    answered "$name.sock" "SEARCH POINT (-10000000 -10000000)" "rows 0"
}

leaves some --connections 3
ended some 0
mkfifo input
exec {keeps}<> input
held+=("$keeps")
input=input leaves endless --until-stdin-ends
exec {keeps}>&-
ended endless 0
