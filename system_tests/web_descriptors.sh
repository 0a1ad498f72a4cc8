# A server that has no descriptor left for a further connection of HTTP tries again each second, and answers those that come later. A
# session of lines that was there before is served all the while.
source "$(dirname "$0")/parts.bash"
web_configuration
limits="-n 16" web_server one map.sock
client stays map.sock
ask stays "HELLO ines" "hello ines"
sockets=()
for ((n = 0; n < 12; n++)); do
    exec {socket}<> "/dev/tcp/127.0.0.1/$port" || fail "nobody listens for connection $n"
    sockets+=("$socket")
done
await grep -q "a connection was not accepted" one.err || fail "it has descriptors for all: $(ls -l "/proc/${started[one]}/fd")"
ask stays "SEARCH POINT (3 4)" "rows 0"
[ "$(grep -c "a connection was not accepted" one.err)" -le 20 ] || fail "it does not rest between its tries: $(wc -l < one.err) warnings"
for socket in "${sockets[@]}"; do
    exec {socket}>&-
done
for ((n = 0; n < 3; n++)); do
    answers /conformance "200 OK" "ogcapi-features-1/1.0/conf/core"
done
ask stays BYE bye
lives one || fail "it has ended: $(cat one.err)"
