# Without --connections a server has no end of its own: it serves more sessions than a world has seats, and ends with its input. A
# session that was there from the start is served all the while, and keeps what it has staged.
source "$(dirname "$0")/parts.bash"
mkfifo input
exec {keeps}<> input
held+=("$keeps")
input=input server one map.sock --workers 5 --until-stdin-ends
client stays map.sock
ask stays "HELLO south" "hello south"
ask stays "ADD 1 mast POINT (3 4)" staged
loops=()
for loop in 1 2 3 4; do
    for ((n = 1; n <= 280; n++)); do
        talk map.sock "HELLO north" "SEARCH POINT ($n $loop)" BYE
    done > "told.$loop" &
    loops+=("$!")
done
wait "${loops[@]}"
for text in "hello north" "rows 0" bye; do
    [ "$(cat told.* | grep -cx "$text")" = 1120 ] || fail "not each session is told $text: $(cat told.* | sort | uniq -c | head -n 5)"
done
lives one || fail "it has ended: $(cat one.err)"
ask stays COMMIT "applied 1"
ask stays "SEARCH POINT (3 4)" "rows 1" "1 1 south mast POINT (3 4)"
ask stays BYE bye
leave stays
told one "listening map.sock"
exec {keeps}>&-
ended one 0
told one "listening map.sock" "closed 1122 records"
[ ! -s one.err ] || fail "it warns: $(head -n 3 one.err)"
[ ! -e map.sock ] || fail "the path is not free"
