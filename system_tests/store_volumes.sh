# A store goes on in a second volume behind 262,144 records, while a server without end changes its hall: features, versions and numbers
# of records are those that there were, at the next start too.
source "$(dirname "$0")/parts.bash"
mkdir store
mkfifo input
exec {keeps}<> input
held+=("$keeps")
input=input server one map.sock --workers 6 --store store --wait changes --until-stdin-ends
client stays map.sock
ask stays "HELLO south" "hello south"
say stays "ADD 7 parcel POLYGON ((0 0, 9 0, 9 9, 0 0))" "ADD 8 road LINESTRING (3 4, 5 6)" COMMIT "ADD 9 mast POINT (3 4)" COMMIT
hear stays staged staged "applied 1" staged "applied 2"
# What is left of a try that found no room for the second volume is removed before it is made.
echo half > store/0000000002.db
echo half > store/0000000002.db-wal
{
    echo "HELLO north"
    for ((n = 1; n <= 66000; n++)); do echo "SEARCH POINT (-9 -9)"; done
    echo BYE
} > lines
many=()
for client in 1 2 3 4; do
    "$program" connect --socket map.sock < lines > "many.$client" &
    many+=("$!")
done
wait "${many[@]}"
# These come behind the change of the volume: their replies wait for it.
say stays "DELETE 8 1" COMMIT "ADD 10 mast POINT (-5 6)" COMMIT BYE
hear stays staged "applied 3" staged "applied 4" bye
leave stays
exec {keeps}>&-
ended one 0
told one "listening map.sock" "closed 264004 records"
for client in 1 2 3 4; do
    [ "$(grep -cx "rows 0" "many.$client")" = 66000 ] || fail "not each search is answered: $(sort "many.$client" | uniq -c | head -n 5)"
done
[ -e store/0000000002.db ] || fail "there is no second volume: $(ls store)"
[ ! -e store/0000000003.db ] || fail "there is a third volume: $(ls store)"
[[ $("$program" store check store) == "right: 2 volumes, "* ]] || fail "the store is not right: $("$program" store check store 2>&1)"
wanted='7,1,south,parcel,"POLYGON ((0 0, 9 0, 9 9, 0 0))"
9,2,south,mast,"POINT (3 4)"
10,4,south,mast,"POINT (-5 6)"'
[ "$("$program" store export store --features)" = "$wanted" ] || fail "the features are $("$program" store export store --features)"
[ "$("$program" store export store | wc -l)" = 264004 ] || fail "not all records are there: $("$program" store export store | wc -l)"
# The next start goes on from there, in the same volume.
told=$(printf 'n: %s\n' "HELLO south" "SEARCH POLYGON ((0 0, 9 0, 9 9, 0 9, 0 0))" "RESHAPE 10 4 POINT (7 7)" COMMIT |
    "$program" script --store store - 2> script.err) || fail "a script: status $?: $(cat script.err)"
[ "$told" = "$(printf 'n: %s\n' "hello south" "rows 2" "7 1 south parcel POLYGON ((0 0, 9 0, 9 9, 0 0))" "9 2 south mast POINT (3 4)" \
    staged "applied 5")" ] || fail "a script says $told"
grep -q "3 features, edition 1, next record 264005" script.err || fail "the next start says $(cat script.err)"
[ ! -e store/0000000003.db ] || fail "the next start has made a third volume"
