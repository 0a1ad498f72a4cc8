# Whatever the umask says, a store's files are its owner's alone, and the socket is the owner's and the group's. A look at a store leaves them so.
source "$(dirname "$0")/parts.bash"
mkdir store
# modes MODE FILE..: all of these files have this mode.
modes() {
    local mode=$1 file
    shift
    for file in "$@"; do
        [ "$(stat -c %a "$file")" = "$mode" ] || fail "$file has the mode $(stat -c %a "$file"), not $mode"
    done
}
life=0
for mask in 000 077; do
    umask "$mask"
    life=$((life + 1))
    server "life$life" map.sock --connections 1 --store store
    modes 660 map.sock
    talk map.sock "HELLO north" "ADD $life mast POINT (3 4)" COMMIT BYE > said || fail "the talk ended with status $?"
    [ "$(sed -n 3p said)" = "applied $life" ] || fail "it says $(cat said)"
    modes 600 store/*
    ended "life$life" 0
    modes 600 store/*
done
umask 000
printf 'n: HELLO north\nn: ADD 3 mast POINT (3 4)\nn: COMMIT\n' | "$program" script --store store - > said 2>&1 || fail "a script: $(cat said)"
for action in check list export; do
    "$program" store "$action" store > said || fail "store $action: status $?"
done
modes 600 store/*
[ "$("$program" store export --features store | wc -l)" = 3 ] || fail "the features are $("$program" store export --features store)"
