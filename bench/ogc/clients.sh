#!/usr/bin/env bash
# Lets clients that no one here wrote read a server by HTTP: GDAL (gdal-bin) and, where it is there, OWSLib (python3-owslib).
#   clients.sh BASE
# BASE is the server's address, as http://127.0.0.1:8080. Each collection is read into a GeoPackage, and from it written as GeoJSON; the
# counts, and the features by their ids, have to be those that the server tells. Nobody should change the map meanwhile.
# Prints a line for each look, and `N passed, M failed` as the last one.
set -uo pipefail
base=${1:?usage: clients.sh BASE}
base=${base%/}
folder=$(mktemp -d)
trap 'rm -rf "$folder"' EXIT
passed=0 failed=0
look() {
    local name=$1 got=$2 wanted=$3
    if [ "$got" = "$wanted" ]; then passed=$((passed + 1)); echo "passed  $name: $got"; else failed=$((failed + 1)); echo "FAILED  $name: $got, not $wanted"; fi
}
# The ids, versions, offices, classes and geometries of a file of GeoJSON, one feature a line, sorted; rings begin at their least corner.
rows() {
    python3 - "$1" <<'PYTHON'
import json, sys
features = json.load(open(sys.argv[1]), parse_float=lambda text: round(float(text), 7))['features']
def at_least(ring):
    """A ring from its least corner on."""
    ring = ring[:-1]
    least = ring.index(min(ring))
    return ring[least:] + ring[:least]
def row(feature):
    told, geometry = feature['properties'], feature['geometry']
    places = geometry['coordinates']
    return told['id'], told['version'], told['office'], told['class'], geometry['type'], [at_least(ring) for ring in places] if geometry['type'] == 'Polygon' else places
print('\n'.join(map(str, sorted(map(row, features), key=str))))
PYTHON
}
names=$(curl -sf "$base/collections" | python3 -c 'import json, sys; print(*[one["id"] for one in json.load(sys.stdin)["collections"]])') || { echo "no collections at $base"; exit 1; }
layers=$(ogrinfo -ro "OAPIF:$base" 2>&1 | sed -n 's/^[0-9]*: \([^ ]*\).*/\1/p' | tr '\n' ' ')
look 'ogrinfo lists the collections' "${layers% }" "$names"
for name in $names; do
    count=$(curl -sf "$base/collections/$name/items?limit=1" | sed 's/.*"numberMatched":\([0-9]*\).*/\1/')
    look "ogrinfo counts $name" "$(ogrinfo -ro -so "OAPIF:$base" "$name" 2>/dev/null | sed -n 's/^Feature Count: //p')" "$count"
    [ "$count" = 0 ] && continue
    # What GDAL takes for the type of a field it sees in its first page of ten: ids and versions should be below 2^31, or all above.
    # The collection of all has several kinds of geometry; a GeoPackage takes them as one of any kind.
    ogr2ogr -q -oo PAGE_SIZE=1000 -f GPKG -nlt GEOMETRY "$folder/$name.gpkg" "OAPIF:$base" "$name" 2> "$folder/told" || cat "$folder/told"
    look "ogr2ogr of $name to a GeoPackage" "$(ogrinfo -ro -so "$folder/$name.gpkg" "$name" 2>/dev/null | sed -n 's/^Feature Count: //p')" "$count"
    ogr2ogr -q -f GeoJSON -lco COORDINATE_PRECISION=9 "$folder/$name.json" "$folder/$name.gpkg" "$name"
    curl -sf "$base/collections/$name/items?limit=10000" > "$folder/own.json"
    if [ "$count" -le 10000 ]; then
        look "and back: the same rows" "$(rows "$folder/$name.json" | sha256sum | cut -c1-16)" "$(rows "$folder/own.json" | sha256sum | cut -c1-16)"
    fi
done
box=$(curl -sf "$base/collections/features/items?limit=1" | python3 -c '
import json, sys
feature = json.load(sys.stdin)["features"][0]
def places(x): return [x] if isinstance(x[0], (int, float)) else [place for y in x for place in places(y)]
xs, ys = zip(*places(feature["geometry"]["coordinates"]))
print(min(xs) - 0.01, min(ys) - 0.01, max(xs) + 0.01, max(ys) + 0.01)')
# shellcheck disable=SC2086
look 'ogrinfo with a window' "$(ogrinfo -ro -so -spat $box "OAPIF:$base" features 2>/dev/null | sed -n 's/^Feature Count: //p')" \
    "$(curl -sf "$base/collections/features/items?limit=1&bbox=${box// /,}" | sed 's/.*"numberMatched":\([0-9]*\).*/\1/')"
if /usr/bin/python3 -c 'import owslib' 2> /dev/null; then
    look 'OWSLib reads the collections' "$(/usr/bin/python3 - "$base" <<'PYTHON'
import sys
from owslib.ogcapi.features import Features
server = Features(sys.argv[1])
print(*server.feature_collections())
PYTHON
)" "$names"
    look 'OWSLib reads the items' "$(/usr/bin/python3 - "$base" <<'PYTHON'
import sys
from owslib.ogcapi.features import Features
page = Features(sys.argv[1]).collection_items('features', limit=5)
print(page['numberReturned'] == len(page['features']) and page['numberMatched'])
PYTHON
)" "$(curl -sf "$base/collections/features/items?limit=1" | sed 's/.*"numberMatched":\([0-9]*\).*/\1/')"
else
    echo 'OWSLib is not there (apt-get install python3-owslib)'
fi
echo "$passed passed, $failed failed"
[ $failed = 0 ]
