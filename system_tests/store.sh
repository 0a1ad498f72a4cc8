# A store outlives what is killed: a script goes on where the one before ended, and a server that was killed knows each list that it
# answered. One at a time has a store.
source "$(dirname "$0")/parts.bash"
mkdir store
n='n: HELLO north'
# script LINE.. -- REPLY..: a script of session n over the store, behind its HELLO.
script() {
    local lines=("$n") told
    while [ "$1" != -- ]; do
        lines+=("n: $1")
        shift
    done
    shift
    told=$(printf '%s\n' "${lines[@]}" | "$program" script --store store - 2> script.err) || fail "${lines[*]}: status $?: $(cat script.err)"
    [ "$told" = "$(printf 'n: %s\n' "hello north" "$@")" ] || fail "${lines[*]}: $told"
}
# Scripts: versions and features run on; what was only staged does not.
script "ADD 1 mast POINT (3 4)" COMMIT "ADD 2 mast POINT (3 4)" -- staged "applied 1" staged
[ "$(stat -c %a store/0000000001.db)" = 600 ] || fail "others may read the store"
script "SEARCH POINT (3 4)" "DELETE 1 1" COMMIT "SEARCH POINT (3 4)" -- "rows 1" "1 1 north mast POINT (3 4)" staged "applied 2" "rows 0"
grep -q "life 2, 1 features, edition 1, next record 2" script.err || fail "the second life says $(cat script.err)"

# A server: what it answered is there after it is killed, again and again, be it a search that found nothing: each reply waits for its
# record. The first three have an end, the others have none.
for ((life = 1; life <= 5; life++)); do
    server "life$life" map.sock $([ "$life" -gt 3 ] || echo --connections 8) --store store --takeover
    client "client$life" map.sock
    ask "client$life" "HELLO north" "hello north"
    for ((id = life * 10; id < life * 10 + life; id++)); do
        say "client$life" "ADD $id mast POINT (5 6)" COMMIT
        version=$((${version:-2} + 1))
        hear "client$life" staged "applied $version"
    done
    # Q1: nobody else gets the store meanwhile.
    begin other script --store store -
    ended other 1
    complains other "landmap: Q1 store"
    ask "client$life" "SEARCH POINT (900 900)" "rows 0"
    for gone in "life$life" "client$life"; do
        kill -KILL "${started[$gone]}"
        wait "${started[$gone]}" 2> /dev/null
        unset "started[$gone]"
    done
done
server last map.sock --connections 1 --store store --takeover
complains last "15 features"
told=$(talk map.sock "HELLO north" "SEARCH POINT (5 6)" BYE | grep -c " north mast POINT (5 6)") || fail "nothing is found"
[ "$told" = 15 ] || fail "$told features are found, not 15"
ended last 0

# The store as text, and whether it is right.
[ "$("$program" store export store --features | wc -l)" = 15 ] || fail "it does not export 15 features"
[ "$("$program" store export store --features | head -n 1)" = '10,3,north,mast,"POINT (5 6)"' ] ||
    fail "the first feature is $("$program" store export store --features | head -n 1)"
[ "$("$program" store export store | grep '"kind":"answered"' | grep -c "POINT (900 900)")" = 5 ] || fail "not each search that was answered is kept"
[ "$("$program" store export store | grep -c '"kind":"applied"')" = 17 ] || fail "it does not export 17 lists"
[[ $("$program" store check store) == "right: 1 volumes, "* ]] || fail "the store is not right: $("$program" store check store 2>&1)"
[[ $("$program" store list store) == "volume 1: lives 1 to 8, "* ]] || fail "it lists $("$program" store list store)"

# Q3: a changed byte. Q2: no folder.
cp -r store damaged
printf X | dd of=damaged/0000000001.db bs=1 seek=5000 conv=notrunc 2> /dev/null
begin damaged store check damaged
ended damaged 1
complains damaged "landmap: Q3 damaged/0000000001.db"
begin nowhere store check nowhere
ended nowhere 1
complains nowhere "landmap: Q2 nowhere"
