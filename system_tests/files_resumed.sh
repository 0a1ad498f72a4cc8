# An import that is killed in the middle goes on where it was, and a server that ends in the middle is told of.
source "$(dirname "$0")/parts.bash"
{
    echo WKT,id,class
    for ((i = 1; i <= 1000; i++)); do
        # Each hundredth row has no class.
        class=mast
        ((i % 100)) || class=
        echo "\"POINT ($i $((i % 7)))\",$i,$class"
    done
} > rows.csv
server one one.sock --connections 20
killed=0
for ((try = 0; try < 10; try++)); do
    begin import import --socket one.sock --as north rows.csv
    await test -s rows.csv.done
    kill -KILL "${started[import]}" 2> /dev/null && killed=$((killed + 1))
    wait "${started[import]}" 2> /dev/null
    unset "started[import]"
    [ "$(cat rows.csv.done)" != 1000 ] || break
done
"$program" import --socket one.sock --as north rows.csv > totals || fail "no last import: status $?"
[ "$(cat rows.csv.done)" = 1000 ] || fail "done: $(cat rows.csv.done)"
[ "$(wc -l < rows.csv.refused.csv)" = 11 ] || fail "refused: $(wc -l < rows.csv.refused.csv)"
[ "$(sort -u rows.csv.refused.csv | wc -l)" = 11 ] || fail "a row is refused twice"
"$program" export --socket one.sock --as north --format csv > all.csv || fail "no export: status $?"
[ "$(wc -l < all.csv)" = 991 ] || fail "features: $(wc -l < all.csv)"
cut -d, -f1 all.csv | tail -n +2 | sort -n | uniq -d | grep . && fail "a feature is there twice"
kill "${started[one]}"
wait "${started[one]}" 2> /dev/null
unset "started[one]"
# A server that ends in the middle: what it has acknowledged is known.
rm rows.csv.done
server two two.sock --connections 20
begin import import --socket two.sock --as north rows.csv
await test -s rows.csv.done
kill -KILL "${started[two]}"
ended two 137 2> /dev/null
wait "${started[import]}"
status=$?
unset "started[import]"
if [ "$status" = 1 ]; then
    grep -qE '^landmap: the server (has ended the connection|could not be (read from|written to))$' import.err || fail "import says $(cat import.err)"
else
    [ "$status" = 0 ] || fail "import ended with status $status: $(cat import.err)"
fi
