#!/usr/bin/env bash
# The same mixed work by PostGIS, for the rows of mixed_sockets.py, and searches of ten rows, 0.1 % and 1 %: as many points, an index, prepared
# statements, over a Unix socket.
#   bench/serve_bench/postgis.sh [FEATURES [SECONDS]]
# Needs Debian's postgresql-15 and postgresql-15-postgis-3 (it makes a cluster of its own in a temporary folder, and ends it), as root.
# Searches return id and WKT of what meets a window of about ten points; a commit is an insertion of one point, with fsync off, since
# landmap keeps nothing on a disk.
set -euo pipefail
features=${1:-100000} seconds=${2:-3}
bin=/usr/lib/postgresql/15/bin
room=$(mktemp -d)
chown postgres "$room"
as() { (cd "$room" && setpriv --reuid=postgres --regid=postgres --clear-groups "$@"); }
finish() { as "$bin/pg_ctl" -D "$room/data" -m immediate stop > /dev/null 2>&1 || true; rm -rf "$room"; }
trap finish EXIT
as "$bin/initdb" -D "$room/data" -A trust > /dev/null
as "$bin/pg_ctl" -D "$room/data" -w -l "$room/log" -o "-k $room -h '' -c fsync=off -c synchronous_commit=off -c shared_buffers=512MB" start > /dev/null
sql() { as "$bin/psql" -h "$room" -q -v ON_ERROR_STOP=1 postgres "$@"; }
sql -c "CREATE EXTENSION postgis" -c "CREATE TABLE features (id bigint PRIMARY KEY, shape geometry)" \
    -c "SELECT setseed(0.5)" \
    -c "INSERT INTO features SELECT n, ST_MakePoint(round(random() * 20000000 - 10000000), round(random() * 20000000 - 10000000)) FROM generate_series(1, $features) n" \
    -c "CREATE INDEX ON features USING gist (shape)" -c "CREATE SEQUENCE ids START 1000000000" -c "VACUUM ANALYZE features" > /dev/null
# search NAME ROWS: a search of a window that takes in so many points of all.
search() {
    local side
    side=$(awk -v n="$features" -v rows="$2" 'BEGIN { printf "%d", 20000000 * sqrt(rows / n) }')
    cat > "$room/$1.sql" <<SQL
\set x random(-10000000, 10000000 - $side)
\set y random(-10000000, 10000000 - $side)
SELECT id, ST_AsText(shape) FROM features WHERE ST_Intersects(shape, ST_MakeEnvelope(:x, :y, :x + $side, :y + $side));
SQL
}
search ten 10
search thousandth $((features / 1000))
search hundredth $((features / 100))
cat > "$room/commit.sql" <<SQL
\set x random(-10000000, 10000000)
\set y random(-10000000, 10000000)
INSERT INTO features VALUES (nextval('ids'), ST_MakePoint(:x, :y));
SQL
chmod a+r "$room"/*.sql
bench() { as "$bin/pgbench" -h "$room" -n -M prepared -T "$seconds" "$@" postgres 2> /dev/null | awk '/^latency average/ && !l { l = $4 } /^tps/ { t = $3 } END { printf "%8.0f requests a second, %7.1f us on average\n", t, l * 1000 }'; }
for clients in 1 4 16; do
    threads=$((clients < 4 ? clients : 4))
    for rows in ten thousandth hundredth; do
        printf '%-44s ' "PostGIS, $clients clients search: $rows"; bench -c "$clients" -j "$threads" -f "$room/$rows.sql"
    done
    printf '%-44s ' "PostGIS, $clients clients, nine searches to one"; bench -c "$clients" -j "$threads" -f "$room/ten.sql@9" -f "$room/commit.sql@1"
done
