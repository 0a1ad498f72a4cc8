#!/usr/bin/env bash
# Drawn features go into a server, out as GeoJSON and CSV, by ogr2ogr into a GeoPackage and back, and into an empty server; what that exports
# has to be the same bytes.
#   bench/gis/round_trip.sh PROGRAM COUNT SEED        needs gdal-bin and python3; COUNT is at most 100,000
set -euo pipefail
here=$(cd "$(dirname "$0")" && pwd)
program=$(realpath "$1")
room=$(mktemp -d)
trap 'kill $(jobs -p) 2> /dev/null; rm -rf "$room"' EXIT
cd "$room"
cat > grid.json <<'END'
{"subjects": [{"name": "north", "office": "north", "role": "editor"}],
 "policies": {"root": {"policy": "start", "combine": "first-applicable", "rules": [{"rule": "open", "effect": "permit"}]}},
 "grid": {"origin": ["7", "46"], "decimals": 7}}
END
serve() {
    "$program" serve --socket "$1" --connections 100 --config grid.json > /dev/null &
    until [ -S "$1" ]; do sleep 0.05; done
}
timed() {
    local begun=$EPOCHREALTIME what=$1
    shift
    "$@"
    awk -v a="$begun" -v b="$EPOCHREALTIME" -v what="$what" 'BEGIN { printf "%s: %.2f s\n", what, b - a }' >&2
}
python3 "$here/draw_features.py" "$2" "$3" > drawn.csv
serve one
timed "import of CSV" "$program" import --socket one --as north --config grid.json drawn.csv
timed "export as GeoJSON" "$program" export --socket one --as north --format geojson --config grid.json > one.geojson
timed "export as CSV" "$program" export --socket one --as north --format csv --config grid.json > one.csv
ogr2ogr -f GPKG -nln features one.gpkg one.geojson
ogr2ogr -f GeoJSON -lco COORDINATE_PRECISION=7 back.geojson one.gpkg
ogr2ogr -f GeoJSONSeq -lco COORDINATE_PRECISION=7 back.geojsons one.gpkg
ogr2ogr -f CSV -lco GEOMETRY=AS_WKT back.csv one.gpkg
for file in back.geojson back.geojsons back.csv; do
    serve "$file.sock"
    timed "import of $file" "$program" import --socket "$file.sock" --as north --config grid.json "$file"
    "$program" export --socket "$file.sock" --as north --format geojson --config grid.json > again.geojson
    cmp one.geojson again.geojson
    "$program" export --socket "$file.sock" --as north --format csv --config grid.json > again.csv
    cmp one.csv again.csv
    echo "$file: the same bytes"
done
