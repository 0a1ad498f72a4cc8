# With --workers 64 as many sessions are answered side by side.
source "$(dirname "$0")/parts.bash"
server one map.sock --connections 64 --workers 64
for ((n = 1; n <= 64; n++)); do
    client "c$n" map.sock
    ask "c$n" "HELLO north" "hello north"
done
for ((n = 1; n <= 64; n++)); do
    ask "c$n" "EXPLAIN read north mast POINT ($n 0)" "permit rule open edition 1"
    ask "c$n" BYE bye
    leave "c$n"
done
ended one 0
told one "listening map.sock" "closed 0 records"
