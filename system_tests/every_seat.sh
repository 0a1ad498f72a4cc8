# A server with an end serves 1,024 sessions, each with a seat of its own, four at a time, and closes with all of them. (There is no
# further one to be refused: --connections allows no more.)
source "$(dirname "$0")/parts.bash"
server one map.sock --connections 1024
loops=()
for loop in 1 2 3 4; do
    for ((n = 1; n <= 256; n++)); do
        talk map.sock "HELLO north" "SEARCH POINT ($n $loop)" BYE
    done > "told.$loop" &
    loops+=("$!")
done
wait "${loops[@]}"
ended one 0
told one "listening map.sock" "closed 1024 records"
for text in "hello north" "rows 0" bye; do
    [ "$(cat told.* | grep -cx "$text")" = 1024 ] || fail "not each session is told $text: $(cat told.* | sort | uniq -c | head -n 5)"
done
[ ! -s one.err ] || fail "it warns: $(head -n 3 one.err)"
