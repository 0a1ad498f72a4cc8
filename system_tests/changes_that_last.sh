# Where a store's file may grow no further, no list is answered that is not kept, also with --wait changes; nor is a line of a script: both end
# with Q2 and status 1, and the next start has each list that was answered.
source "$(dirname "$0")/parts.bash"
trap '' XFSZ
# lasts FOLDER APPLIED: so many lists, or one more, are kept there.
lasts() {
    local kept
    kept=$("$program" store export --features "$1" | wc -l)
    [ "$kept" -ge "$2" ] && [ "$kept" -le $(($2 + 1)) ] || fail "$1: $2 lists were answered, and $kept are there"
}
{
    echo "HELLO north"
    for ((id = 1; id <= 3000; id++)); do
        printf 'ADD %d mast POINT (3 4)\nCOMMIT\n' "$id"
    done
} > lines
mkdir served
mkfifo input
exec {keeps}<> input
held+=("$keeps")
limits="-f 400" input=input server one map.sock --store served --wait changes --until-stdin-ends
"$program" connect --socket map.sock < lines > told 2> errors && fail "each line is answered"
[ "$(cat errors)" = "landmap: the server is gone" ] || fail "the talk says $(cat errors)"
ended one 1
complains one "landmap: Q2 served/0000000001.db"
[ ! -e map.sock ] || fail "the path is not free"
applied=$(grep -c '^applied ' told)
[ "$applied" -gt 0 ] || fail "nothing was applied: $(tail -n 3 told)"
lasts served "$applied"
# A script writes nothing of a reply whose record is not kept, and answers no further line.
mkdir scripted
sed 's/^/n: /' lines > lines.map
limits="-f 400" begin script script --store scripted lines.map
ended script 1
complains script "landmap: Q2 scripted/0000000001.db"
applied=$(grep -c '^n: applied ' script.out)
[ "$applied" -gt 0 ] || fail "a script applied nothing: $(tail -n 3 script.out)"
[ "$(tail -n 1 script.out)" = "n: staged" ] || fail "a script ends by $(tail -n 1 script.out)"
[ "$(wc -l < script.out)" = $((2 * applied + 2)) ] || fail "a script has $(wc -l < script.out) lines for $applied lists"
lasts scripted "$applied"
