# What was deleted is found no more, also where the index has been tended since; what is left is.
source "$(dirname "$0")/parts.bash"
server one map.sock --connections 2
{
    echo "HELLO north"
    for ((id = 1; id <= 320; id++)); do
        echo "ADD $id mast POINT ($id $id)"
        [ $((id % 16)) != 0 ] || echo COMMIT
    done
    for ((id = 1; id <= 304; id++)); do
        echo "DELETE $id $(((id + 15) / 16))"
        [ $((id % 16)) != 0 ] || echo COMMIT
    done
    echo BYE
} > lines
"$program" connect --socket map.sock < lines > told || fail "the talk ended with status $?"
[ "$(grep -c '^applied ' told)" = 39 ] || fail "not all is applied: $(grep -v '^staged' told | tail -n 3)"
# Some rounds of tending.
sleep 0.5
rows=("rows 16")
for ((id = 305; id <= 320; id++)); do
    rows+=("$id 20 north mast POINT ($id $id)")
done
answered map.sock "SEARCH POLYGON ((0 0, 1000 0, 1000 1000, 0 1000, 0 0))" "${rows[@]}"
ended one 0
told one "listening map.sock" "closed 40 records"
