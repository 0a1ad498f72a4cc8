# With --until-stdin-ends nobody is served behind the end of standard input, and a session under way goes on.
source "$(dirname "$0")/parts.bash"
# Whether somebody listens on a path. (Other tests have other paths, for these are those of all processes.) A list that changes while it is
# read may lack some of them, so the path is looked for several times.
is_open() {
    local look flags path
    for look in 1 2 3 4 5; do
        while read -r _ _ _ flags _ _ _ path; do
            [[ $flags != 00010000 || $path != "$1" ]] || return 0
        done < /proc/net/unix
    done
    return 1
}
is_closed() {
    ! is_open "$1"
}
mkfifo input
exec {keeps}<> input
held+=("$keeps")
input=input server one until.sock --connections 9 --until-stdin-ends
client under_way until.sock
ask under_way "HELLO north" "hello north"
echo "what is written to it is not read as lines" >&"$keeps"
sleep 0.2
is_open until.sock || fail "it has ended before its input"
exec {keeps}>&-
await is_closed until.sock || fail "it listens behind the end of the input"
! talk until.sock "HELLO south" > /dev/null 2>&1 || fail "a client is served behind the end of the input"
told one "listening until.sock"
ask under_way "SEARCH POINT (3 4)" "rows 0"
ask under_way BYE bye
leave under_way
ended one 0
told one "listening until.sock" "closed 1 records"
[ ! -e until.sock ] || fail "the path is not free"
# The input of this one has ended already: it listens, and ends at once.
begin two serve --socket until.sock --connections 9 --until-stdin-ends
ended two 0
told two "listening until.sock" "closed 0 records"
# A server that cannot bind the path leaves the one that listens there alone.
server three until.sock --connections 1
for round in 1 2 3 4 5; do
    begin four serve --socket until.sock --connections 9 --until-stdin-ends
    ended four 1
done
answered until.sock "SEARCH POINT (3 4)" "rows 0"
ended three 0
