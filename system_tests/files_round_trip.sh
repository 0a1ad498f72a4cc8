# What is exported and imported into an empty server is exported again as the same bytes.
source "$(dirname "$0")/parts.bash"
cat > grid.json <<'END'
{"subjects": [{"name": "north", "office": "north", "role": "editor"},
              {"name": "guest", "office": "south", "role": "viewer"}],
 "policies": {"root": {"policy": "start", "combine": "deny-unless-permit",
   "rules": [{"rule": "own", "effect": "permit", "target": [[[{"role": "editor"}]]]}]}},
 "grid": {"origin": ["7", "46"], "decimals": 7}}
END
server one one.sock --connections 9 --config grid.json
talk one.sock "HELLO north" "ADD 1 mast POINT (1 -2)" "ADD 7 road LINESTRING (1 2, 3000000 4)" \
    "ADD 300 parcel POLYGON ((0 0, 50 0, 50 50, 20 60, 0 0))" COMMIT BYE > lines || fail "the talk ended with status $?"
for format in geojson geojsonseq csv; do
    for grid in "" "--config grid.json"; do
        "$program" export --socket one.sock --as north --format "$format" $grid > "one.$format" || fail "no export: status $?"
        server two two.sock --connections 3 --config grid.json
        said=$("$program" import --socket two.sock --as north $grid "one.$format") || fail "no import of $format $grid: status $?"
        [ "$said" = "$(printf '%s\n' 'rows 3' 'applied 3' 'present 0' 'refused 0')" ] || fail "import of $format $grid: $said"
        [ "$(cat "one.$format.done")" = 3 ] || fail "done: $(cat "one.$format.done")"
        [ "$(cat "one.$format.refused.csv")" = row,id,code,rule,place ] || fail "refused: $(cat "one.$format.refused.csv")"
        "$program" export --socket two.sock --as north --format "$format" $grid > "two.$format" || fail "no second export: status $?"
        cmp "one.$format" "two.$format" || fail "$format $grid is not the same"
        answered two.sock "SEARCH POINT (1 -2)" "rows 1" "1 1 north mast POINT (1 -2)"
        ended two 0
        rm "one.$format.done"
    done
done
grep -qF '"coordinates":[7.0000001,45.9999998]' one.geojson || fail "one.geojson: $(cat one.geojson)"
grep -qF '1,1,north,mast,"POINT (7.0000001 45.9999998)"' one.csv || fail "one.csv: $(cat one.csv)"
# A window, a class, and one who may read nothing.
"$program" export --socket one.sock --as north --format csv --class road --config grid.json \
    --window 'POLYGON ((7 46, 7.1 46, 7.1 46.1, 7 46))' > road.csv || fail "no export of a window: status $?"
[ "$(cat road.csv)" = "$(printf '%s\n' id,version,office,class,WKT '7,1,north,road,"LINESTRING (7.0000001 46.0000002, 7.3000000 46.0000004)"')" ] || fail "road.csv: $(cat road.csv)"
"$program" export --socket one.sock --as guest --format geojson > none.geojson || fail "no export of a guest: status $?"
[ "$(tr -d '\n' < none.geojson)" = '{"type":"FeatureCollection","features":[]}' ] || fail "none.geojson: $(cat none.geojson)"
ended one 0
