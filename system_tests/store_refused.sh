# What a store refuses: a folder that another server has, files of another program, volumes that are missing or have not begun.
source "$(dirname "$0")/parts.bash"
mkdir one
server first first.sock --connections 2 --store one
answered first.sock "ADD 1 mast POINT (3 4)" staged
# Q1: a second server, and a look, while the first one has the folder. It goes on.
begin second serve --socket second.sock --connections 1 --store one
ended second 1
complains second "landmap: Q1 one"
[ ! -e second.sock ] || fail "a server without its store has bound a socket"
begin look store list one
ended look 1
complains look "landmap: Q1 one"
talk first.sock "HELLO north" "ADD 1 mast POINT (3 4)" COMMIT BYE > told || fail "the first server has gone"
[ "$(sed -n 3p told)" = "applied 1" ] || fail "the first server says $(cat told)"
ended first 0

# Q3: a volume that is a text.
mkdir text
printf 'these are not the pages of a database, but a text that somebody has put here\n' > text/0000000001.db
for words in "serve --socket text.sock --connections 1 --store text" "store check text"; do
    begin text $words
    ended text 1
    complains text "landmap: Q3 text/0000000001.db"
done
[ "$(head -c 9 text/0000000001.db)" = "these are" ] || fail "the text was changed"

# A volume that has not begun is made anew where it is the first, or the one before is there; else it is Q3.
mkdir empty
: > empty/0000000001.db
server anew anew.sock --connections 1 --store empty
complains anew "life 1, 0 features"
answered anew.sock "SEARCH POINT (3 4)" "rows 0"
ended anew 0
cp -r one gap
mv gap/0000000001.db gap/0000000003.db
rm -f gap/0000000001.db-wal
: > gap/0000000005.db
begin gap serve --socket gap.sock --connections 1 --store gap
ended gap 1
complains gap "landmap: Q3 gap/0000000005.db"
cp -r one cut
: > cut/0000000002.db
server cut cut.sock --connections 1 --store cut
complains cut "1 features"
answered cut.sock "SEARCH POINT (3 4)" "rows 1" "1 1 north mast POINT (3 4)"
ended cut 0
[ ! -e cut/0000000002.db ] || fail "the volume that has not begun is still there"

# One before the last that has not begun was emptied: no look passes over it, and no start begins before it.
cp -r one emptied
mv emptied/0000000001.db emptied/0000000002.db
rm -f emptied/*.db-wal
: > emptied/0000000001.db
for words in "check emptied" "export emptied" "list emptied"; do
    begin emptied store $words
    ended emptied 1
    complains emptied "landmap: Q3 emptied/0000000001.db"
    [ ! -s emptied.out ] || fail "store $words tells $(cat emptied.out)"
done
cp -r cut twice
: > twice/0000000002.db
: > twice/0000000003.db
begin twice serve --socket twice.sock --connections 1 --store twice
ended twice 1
complains twice "landmap: Q3 twice/0000000002.db"
[ -e twice/0000000002.db ] && [ -e twice/0000000003.db ] || fail "a volume was removed that the start refused"
