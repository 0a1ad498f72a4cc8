# A server that has no descriptor left for a further connection tries again each second: it uses up its connections no faster, and
# serves those that come later.
source "$(dirname "$0")/parts.bash"
# starved LIMIT: a server with so many descriptors, and more clients than it has descriptors for. A session takes two: with the one
# limit it is the accepting that fails, with the other the second descriptor.
starved() {
    local n clients=() warnings
    limits="-n $1" server "s$1" "$1.sock" --connections 1000 --workers 64
    for ((n = 1; n <= 12; n++)); do
        (
            printf 'HELLO north\n'
            sleep 2
        ) | "$program" connect --socket "$1.sock" > "c$n.$1" 2> /dev/null &
        clients+=($!)
    done
    for n in "${clients[@]}"; do
        wait "$n"
    done
    warnings=$(grep -c "a connection was not accepted" "s$1.err")
    [ "$warnings" -ge 1 ] || fail "with $1 it never ran out of descriptors"
    [ "$warnings" -le 6 ] || fail "with $1 there are $warnings warnings in about two seconds"
    lives "s$1" || fail "with $1 it has ended: $(cat "s$1.out")"
    answered "$1.sock" "SEARCH POINT (3 4)" "rows 0"
}
starved 15
starved 16
