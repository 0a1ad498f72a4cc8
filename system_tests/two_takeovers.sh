# Of two servers that take over a path at once, one serves, and one cannot bind it.
source "$(dirname "$0")/parts.bash"
for round in 1 2 3 4 5; do
    server killed map.sock --connections 1
    kill -KILL "${started[killed]}"
    ended killed 137 2> /dev/null
    for name in a b; do
        # One of the connections is that of the other server, which looks whether somebody listens.
        begin "$name" serve --socket map.sock --connections 2 --takeover
    done
    one_has_ended() {
        ! lives a || ! lives b
    }
    await one_has_ended || fail "both serve"
    if lives a; then
        serves=a down=b
    else
        serves=b down=a
    fi
    ended "$down" 1
    [ "$(cat "$down.err")" = "landmap: cannot bind map.sock" ] || fail "$down says: $(cat "$down.err")"
    answered map.sock "SEARCH POINT (3 4)" "rows 0"
    ended "$serves" 0
    told "$serves" "listening map.sock" "closed 1 records"
done
