# Three hundred clients that are silent keep nobody out, where there are more workers than that.
source "$(dirname "$0")/parts.bash"
mkfifo input quiet
exec {keeps}<> input {quiet}<> quiet
held+=("$keeps" "$quiet")
input=input server one silent.sock --workers 320 --until-stdin-ends
for ((n = 1; n <= 300; n++)); do
    input=quiet output=/dev/null begin "silent$n" connect --socket silent.sock
done
# Whether all of them are connected: each has a socket of the server's, beside the one that listens. (Other tests have other paths, for
# these are those of all processes.)
are_there() {
    [ "$(grep -c 'silent\.sock$' /proc/net/unix)" -ge 301 ]
}
await are_there || fail "not all are connected: $(grep -c 'silent\.sock$' /proc/net/unix)"
for ((n = 1; n <= 20; n++)); do
    answered silent.sock "SEARCH POINT ($n 0)" "rows 0"
done
exec {keeps}>&-
for ((n = 1; n <= 300; n++)); do
    kill -KILL "${started[silent$n]}"
    wait "${started[silent$n]}" 2> /dev/null
    unset "started[silent$n]"
done
ended one 0
told one "listening silent.sock" "closed 20 records"
