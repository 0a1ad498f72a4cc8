#!/usr/bin/env bash
# What programs that no one here wrote say of a store's volumes, and what landmap says of theirs.
#   bench/store/others.sh PROGRAM [DIR]        needs sqlite3 and gdal-bin; as root, since a folder that may not be written is tried as nobody
# DIR is a store that no server has, of any number of volumes; without it a small one is made. Exits with 1 at the first difference.
set -euo pipefail
program=$(realpath "$1")
room=$(mktemp -d)
trap 'rm -rf "$room"' EXIT
fail() {
    echo "$*" >&2
    exit 1
}
if [ -n "${2:-}" ]; then
    store=$(realpath "$2")
else
    store=$room/store
    mkdir "$store"
    for ((id = 1; id <= 50; id++)); do printf 'n: %s\n' "ADD $id mast POINT ($id -7)" COMMIT "SEARCH POINT ($id -7)"; done > "$room/lines"
    { echo 'n: HELLO north'; cat "$room/lines"; } | "$program" script --store "$store" - > "$room/told" 2> /dev/null
    [ "$(grep -c '^n: applied' "$room/told")" = 50 ] || fail "the small store was not made"
fi
"$program" store check "$store"
"$program" store list "$store" > "$room/list"

# Every volume by SQLite and by GDAL: on a copy, so that nothing of theirs comes near the store.
cp -r "$store" "$room/copy"
volumes=0
while read -r _ number _; do
    number=${number%:}
    file=$room/copy/$(printf '%010d' "$number").db
    line=$(grep "^volume $number: " "$room/list")
    [ "$(sqlite3 -readonly "$file" 'PRAGMA integrity_check')" = ok ] || fail "volume $number: $(sqlite3 -readonly "$file" 'PRAGMA integrity_check')"
    features=$(sqlite3 -readonly "$file" 'SELECT count(*) FROM feature')
    records=$(sqlite3 -readonly "$file" 'SELECT count(*) FROM record')
    [[ $line == *", $records records from "*" on, $features features, "* ]] || fail "volume $number has $records records and $features features for SQLite, and is: $line"
    [ "$(sqlite3 -readonly "$file" "SELECT count(*) FROM record WHERE json_valid(line)")" = "$records" ] || fail "volume $number has a line that is no JSON"
    found=$(ogrinfo -ro -so "$file" feature 2>&1 | awk '/^Feature Count:/ { print $3 }')
    [ "$found" = "$features" ] || fail "volume $number has $found features for GDAL, and $features are due: $(ogrinfo -ro -so "$file" feature 2>&1)"
    volumes=$((volumes + 1))
done < "$room/list"
"$program" store export --features "$store" > "$room/features"
if [ "$features" -gt 0 ]; then
    ogr2ogr -f CSV -lco GEOMETRY=AS_WKT "$room/gdal.csv" "$file" feature
    [ "$(($(wc -l < "$room/gdal.csv") - 1))" = "$(wc -l < "$room/features")" ] || fail "GDAL writes $(wc -l < "$room/gdal.csv") lines of the last volume"
fi
cmp <(cat "$room"/copy/*.db | sha256sum) <(cat "$store"/*.db | sha256sum) || fail "SQLite or GDAL has changed a volume"
echo "$volumes volumes: right for SQLite and for GDAL, with as many rows"

# A database of SQLite with other tables, one without sums that has ours, one in another mode: refused, and left as it was.
other() {
    local name=$1 folder=$room/$1
    mkdir "$folder"
    sqlite3 "$folder/0000000001.db" "$2" > /dev/null
    cp "$folder/0000000001.db" "$room/$name.before"
    status=0
    told=$("$program" store check "$folder" 2>&1) || status=$?
    began=0
    said=$(printf 'n: HELLO north\n' | "$program" script --store "$folder" - 2>&1) || began=$?
    cmp -s "$folder/0000000001.db" "$room/$name.before" && kept=unchanged || kept=changed
    echo "$name: store check: $told (status $status); a start: $(tail -n 1 <<< "$said") (status $began); the file is $kept"
    [ "$status" = 1 ] && [ "$began" = 1 ] && [ "$kept" = unchanged ] || fail "$name: it is not refused and left as it was"
    [[ $told == "landmap: Q3 "* ]] || fail "$name: not Q3"
}
other tables "CREATE TABLE other (one INTEGER PRIMARY KEY, two TEXT); INSERT INTO other VALUES (1, 'x');"
other wal "PRAGMA journal_mode = WAL; CREATE TABLE other (one INTEGER PRIMARY KEY, two TEXT);"

# A folder that may not be written, as nobody.
if [ "$(id -u)" = 0 ]; then
    chmod 0711 "$room"
    cp "$program" "$room/program"
    chmod 0755 "$room/program"
    mkdir "$room/closed"
    chown nobody "$room/closed"
    chmod 0555 "$room/closed"
    status=0
    told=$(cd "$room" && setpriv --reuid=nobody --regid=nogroup --clear-groups ./program serve --socket "$room/socket" --connections 1 --store closed 2>&1) || status=$?
    echo "a folder of mode 0555: $told (status $status)"
    [ "$status" = 1 ] && [[ $told == "landmap: Q2 closed: "* ]] || fail "a folder that may not be written is not Q2"
    [ -z "$(ls "$room/closed")" ] || fail "something was written into a folder that may not be written"
fi
