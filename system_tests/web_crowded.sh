# Where more silent connections come than may wait, the server closes some that have had no answer for long, and warns of it; it answers
# whoever asks all the while.
source "$(dirname "$0")/parts.bash"
web_configuration
mkfifo input
exec {keeps}<> input
held+=("$keeps")
input=input web_server one map.sock --until-stdin-ends
ulimit -S -n 1000 || fail "no descriptors for so many clients"
sockets=()
for ((n = 0; n < 600; n++)); do
    [ $n -lt 599 ] || sleep 0.1
    exec {socket}<> "/dev/tcp/127.0.0.1/$port" || fail "nobody listens for connection $n"
    sockets+=("$socket")
done
for n in 1 2 3; do
    answers /conformance "200 OK" "ogcapi-features-1/1.0/conf/core"
done
crowded() {
    [ "$(grep -c "a connection of HTTP was closed: too many wait" one.err)" -ge 50 ]
}
await crowded || fail "too many wait: $(sort one.err | uniq -c)"
# The last one that came is not among those that were closed.
printf 'GET /nowhere HTTP/1.1\r\nHost: localhost\r\n\r\n' >&"${sockets[599]}"
read -r -t 10 -u "${sockets[599]}" line && [ "$line" = $'HTTP/1.1 404 Not Found\r' ] || fail "the last connection is told $line"
for socket in "${sockets[@]}"; do
    exec {socket}>&-
done
exec {keeps}>&-
ended one 0
