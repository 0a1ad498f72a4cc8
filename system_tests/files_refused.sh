# Bad files, each with its line; rows that are refused; a server that ends in the middle.
source "$(dirname "$0")/parts.bash"
# says LINE WORD..: the program ends with status 1, and this line.
says() {
    local line=$1 status=0
    shift
    "$program" "$@" > said.out 2> said.err || status=$?
    [ "$status" = 1 ] || fail "$*: status $status"
    [ "$(cat said.err)" = "landmap: $line" ] || fail "$* says $(cat said.err), not $line"
}
as="--as north"
to="$as --class mast --script"
printf '' > empty
printf 'no,columns\n1,2\n' > columns.csv
printf '[1,2]' > array.json
printf '{"type":"FeatureCollection","features":[{"type":"Point","coordinates":[1,2]},' > half.json
printf '{"type":"Feature","geometry"' > cut.json
printf '{"type":"FeatureCollection","features":[7]}' > number.json
says "F1 behind row 0" import $to empty
says "F1 behind row 0" import $to columns.csv
says "F1 behind row 0" import $to array.json
says "F2 behind row 1" import $to --first-id 1 half.json
says "F2 behind row 0" import $to cut.json
says "F1 behind row 0" import $to number.json
says "cannot read no.json" import $to no.json
says "cannot read ." import $to .
says "no name North" import --script --as North --class mast empty
says "no name a_b" import --script $as --class a_b empty
says "cannot connect no.sock" import --socket no.sock $as empty
says "cannot connect no.sock" export --socket no.sock $as --format csv
says "K1 byte 0" export --socket no.sock $as --format csv --window 'CIRCLE (1 2)'
says "P4" export --socket no.sock $as --format csv --window 'POLYGON ((0 0, 1 1, 0 0))'
says "cannot read no.json" export --socket no.sock $as --format csv --config no.json
# 4.2 MB in one line are refused, and not held.
{ printf '{"type":"Point","x":"'; head -c 4200000 /dev/zero | tr '\0' x; } > long.json
says "F3 behind row 0" import $to long.json
# Rows that are refused, by the file and by the server.
cat > agency.json <<'END'
{"subjects": [{"name": "north", "office": "north", "role": "editor"}],
 "policies": {"zones": [{"zone": "harbour", "shape": "POLYGON ((0 0, 9 0, 9 9, 0 9, 0 0))"}],
   "root": {"policy": "start", "combine": "first-applicable",
   "rules": [{"rule": "closed", "effect": "deny", "target": [[[{"action": "add"}, {"zone": "harbour"}]]]},
             {"rule": "open", "effect": "permit"}]}}}
END
cat > rows.csv <<'END'
WKT,id,class
"POINT (100 2)",1,mast
"POINT (5 5)",2,mast
"POINT (100)",3,mast
"LINESTRING (10 10, 20 20, 30 10)",4,road
"POINT (100 3)",1,mast
"POINT (100.5 3)",5,mast
"POINT (100 4)",,mast
"POINT (100 4)",6,
"POINT (100 4)",7,mast
END
server one one.sock --connections 5 --config agency.json
"$program" import --socket one.sock $as rows.csv > totals || fail "no import: status $?"
[ "$(cat totals)" = "$(printf '%s\n' 'rows 9' 'applied 2' 'present 0' 'refused 7')" ] || fail "totals: $(cat totals); $(cat rows.csv.refused.csv)"
[ "$(sort rows.csv.refused.csv)" = "$(sort <<'END'
row,id,code,rule,place
2,2,denied,closed,
3,,K3,,byte 10
4,,L4,,
5,1,X5,,
6,,M2,,byte 7
7,,I1,,
8,,I2,,
END
)" ] || fail "refused: $(cat rows.csv.refused.csv)"
# A script of the same file, with the lines of rows that are features, leaves that as it is.
cp rows.csv.refused.csv kept.csv
"$program" import --script $as --split rows.csv > rows.map 2> said.err || fail "no script: status $?"
[ "$(cat said.err)" = "landmap: rows.csv.refused.csv stays as it is up to row 9, as rows.csv.done says" ] || fail "a script says $(cat said.err)"
cmp kept.csv rows.csv.refused.csv || fail "a script has changed what was refused: $(cat rows.csv.refused.csv)"
[ "$(grep -c 'ADD' rows.map)" = 6 ] || fail "the script: $(cat rows.map)"
# Without an import it tells of its own.
cp rows.csv tried.csv
"$program" import --script $as tried.csv > tried.map 2> said.err || fail "no script: status $?"
[ ! -s said.err ] || fail "a script says $(cat said.err)"
[ "$(cat tried.csv.refused.csv)" = "$(printf '%s\n' row,id,code,rule,place 3,,K3,,'byte 10' 4,,L4,, 6,,M2,,'byte 7' 7,,I1,, 8,,I2,,)" ] || fail "refused: $(cat tried.csv.refused.csv)"
[ ! -e tried.csv.done ] || fail "a script has settled $(cat tried.csv.done) rows"
# Once more from the start: what is there counts as done.
rm rows.csv.done
"$program" import --socket one.sock $as rows.csv > totals || fail "no second import: status $?"
[ "$(cat totals)" = "$(printf '%s\n' 'rows 9' 'applied 0' 'present 2' 'refused 7')" ] || fail "totals: $(cat totals)"
# With --whole nothing goes on behind a row that is refused.
cp rows.csv whole.csv
says "a row is refused, see whole.csv.refused.csv" import --socket one.sock $as --whole whole.csv
[ ! -e whole.csv.done ] || fail "whole.csv has settled $(cat whole.csv.done) rows"
# A book that cannot grow is named: here the one of what is refused has room for 1,024 bytes.
{ echo WKT,id,class; for row in {1..400}; do echo "POINT (x),$row,mast"; done; } > many.csv
(
    trap '' XFSZ
    ulimit -f 1
    "$program" import --socket one.sock $as many.csv > totals 2>&1
    [ "$?" = 1 ]
) || fail "an import whose book is full ends well"
grep -qx 'landmap: cannot keep many.csv.refused.csv' totals || fail "an import whose book is full: $(cat totals)"
# Lines are cut, and numbered.
cat > cut.csv <<'END'
WKT,id
"LINESTRING (100 10, 120 20, 130 10)",way/4
"POLYGON ((200 0, 240 0, 240 40, 220 10, 200 0))",way/5
END
"$program" import --socket one.sock $as --class road --split --first-id 50 cut.csv > totals || fail "no import of lines: status $?"
[ "$(cat totals)" = "$(printf '%s\n' 'rows 2' 'applied 4' 'present 0' 'refused 0')" ] || fail "totals: $(cat totals); $(cat cut.csv.refused.csv)"
ended one 0
