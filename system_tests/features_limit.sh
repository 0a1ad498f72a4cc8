# With --features 2 a server, and a script over a store, hold two features and no third one; what takes one out makes room.
source "$(dirname "$0")/parts.bash"
lines=("HELLO north" "ADD 1 mast POINT (3 4)" "ADD 2 mast POINT (3 4)" COMMIT "ADD 3 mast POINT (3 4)" COMMIT ABORT
    "DELETE 1 1" "ADD 3 mast POINT (3 4)" COMMIT BYE)
wanted=$(printf '%s\n' "hello north" staged staged "applied 1" staged "error X11" aborted staged staged "applied 2" bye)
server one map.sock --connections 1 --features 2
told=$(talk map.sock "${lines[@]}")
[ "$told" = "$wanted" ] || fail "a server says: $told"
ended one 0
mkdir store
told=$(printf 'n: %s\n' "${lines[@]}" | "$program" script --store store --features 2 - 2> script.err)
[ "$told" = "$(sed 's/^/n: /' <<< "$wanted")" ] || fail "a script says: $told; $(cat script.err)"
# With one more there is room for it.
told=$(printf 'n: %s\n' "HELLO north" "ADD 4 mast POINT (3 4)" COMMIT | "$program" script --store store --features 3 - 2> script.err)
[ "$(tail -n 1 <<< "$told")" = "n: applied 3" ] || fail "a script with room says: $told; $(cat script.err)"
