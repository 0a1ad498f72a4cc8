# With --idle 2 a silent client is left after two seconds, and one that says something each second is not. A server without end does the
# same as one of two connections.
source "$(dirname "$0")/parts.bash"

# leaves NAME OPTION..: serves a busy client and a silent one, and leaves the silent one.
leaves() {
    local name=$1 busy=busy.$1 silent=silent.$1 began watcher waited x
    shift
    server "$name" "$name.sock" --idle 2 "$@"
    client "$busy" "$name.sock"
    ask "$busy" "HELLO north" "hello north"
    client "$silent" "$name.sock"
    ask "$silent" "HELLO south" "hello south"
    began=${EPOCHREALTIME/[.,]/}
    (
        # The server warns when it leaves a client.
        await test -s "$name.err" && echo "${EPOCHREALTIME/[.,]/}" > "left.$name"
    ) &
    watcher=$!
    for x in 1 2 3 4 5; do
        sleep 1
        ask "$busy" "SEARCH POINT ($x 0)" "rows 0"
    done
    wait "$watcher" || fail "$name: the silent client is not left"
    waited=$(($(cat "left.$name") - began))
    [ "$waited" -ge 1500000 ] || fail "$name: the silent client was left after $waited microseconds"
    [ "$waited" -le 4000000 ] || fail "$name: the silent client was left after $waited microseconds"
    complains "$name" "a session ended by V1"
    say "$silent" "SEARCH POINT (1 0)"
    leave "$silent" 1
    complains "$silent" "landmap: the server is gone"
    ask "$busy" BYE bye
    leave "$busy"
}

leaves some --connections 2
ended some 0
told some "listening some.sock" "closed 5 records"
mkfifo input
exec {keeps}<> input
held+=("$keeps")
input=input leaves endless --until-stdin-ends
exec {keeps}>&-
ended endless 0
told endless "listening endless.sock" "closed 5 records"
