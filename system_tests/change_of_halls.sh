# Behind 262,144 records the server without an end of connections changes its hall. A session that was silent all the while keeps what it
# has staged, and the line that it has begun; the numbers of records go on; and all records of both halls are counted at the end.
source "$(dirname "$0")/parts.bash"
mkfifo input
exec {keeps}<> input
held+=("$keeps")
input=input server one map.sock --workers 6 --until-stdin-ends
client stays map.sock
ask stays "HELLO south" "hello south"
ask stays "ADD 1 mast POINT (3 4)" staged
printf COM >&"${speaks[stays]}"
{
    echo "HELLO north"
    for ((n = 1; n <= 66000; n++)); do echo "SEARCH POINT (9 9)"; done
    echo BYE
} > lines
many=()
for client in 1 2 3 4; do
    "$program" connect --socket map.sock < lines > "many.$client" &
    many+=("$!")
done
wait "${many[@]}"
for client in 1 2 3 4; do
    [ "$(grep -cx "rows 0" "many.$client")" = 66000 ] || fail "not each search is answered: $(sort "many.$client" | uniq -c | head -n 5)"
done
# The change begins within a second, and is over within some more.
sleep 3
ask stays MIT "applied 1"
ask stays BYE bye
leave stays
talk map.sock "HELLO chief" "SEARCH POINT (3 4)" ROLL BYE > chief
[ "$(sed -n 2,3p chief)" = "rows 1
1 1 south mast POINT (3 4)" ] || fail "the chief finds: $(head -n 3 chief)"
first=$(sed -n 's/.*"number":\([0-9]*\),.*/\1/p' chief | head -n 1)
[ "${first:-0}" -gt 262144 ] || fail "the hall was not changed: $(sed -n 4,5p chief)"
lives one || fail "it has ended: $(cat one.err)"
exec {keeps}>&-
ended one 0
told one "listening map.sock" "closed 264002 records"
[ ! -s one.err ] || fail "it warns: $(head -n 3 one.err)"
