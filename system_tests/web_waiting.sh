# With one worker for HTTP, connections that are silent, have sent a part of a request, or were answered and stay open keep nobody out:
# each is answered once it asks, again and again. None of them keeps a server that ends open.
source "$(dirname "$0")/parts.bash"
web_configuration
mkfifo input
exec {keeps}<> input
held+=("$keeps")
input=input web_server one map.sock --http-workers 1 --until-stdin-ends
sockets=()
# asks N: the connection with this number sends a whole request.
asks() {
    printf 'GET /nowhere HTTP/1.1\r\nHost: localhost\r\n\r\n' >&"${sockets[$1]}"
}
# hears N: the connection with this number is answered, and stays open.
hears() {
    local line length=
    read -r -t 20 -u "${sockets[$1]}" line || fail "connection $1 is not answered"
    [ "$line" = $'HTTP/1.1 404 Not Found\r' ] || fail "connection $1 is answered $line"
    while read -r -t 10 -u "${sockets[$1]}" line && [ "$line" != $'\r' ]; do
        [[ $line != content-length:* ]] || length=${line//[^0-9]/}
        [[ $line != connection:* ]] || fail "connection $1 does not stay: $line"
    done
    read -r -t 10 -N "${length:-0}" -u "${sockets[$1]}" line || fail "connection $1 has no body"
    [[ $line == *'"code":"U1"'* ]] || fail "connection $1 has $line"
}
for n in 0 1 2 3 4 5; do
    exec {socket}<> "/dev/tcp/127.0.0.1/$port" || fail "nobody listens for connection $n"
    sockets+=("$socket")
    held+=("$socket")
done
# Two are silent, two have sent a part of a request, two were answered.
for n in 2 3; do
    printf 'GET /nowhere HTTP/1.1\r\nHost: local' >&"${sockets[n]}"
done
for n in 4 5; do
    asks $n
    hears $n
done
# Somebody else is answered, and so are all of them, the last one first.
answers /conformance "200 OK" "ogcapi-features-1/1.0/conf/core"
for n in 5 4; do
    asks $n
    hears $n
done
for n in 3 2; do
    printf 'host\r\n\r\n' >&"${sockets[n]}"
    hears $n
done
# Requests that are sent without waiting for their answers are answered one after another.
for n in 1 0; do
    asks $n
    asks $n
done
for n in 0 1; do
    hears $n
    hears $n
done
# At the end one has sent a part of a request again.
printf 'GET /nowhere' >&"${sockets[3]}"
exec {keeps}>&-
gone() {
    ! lives one
}
await gone || fail "open connections keep the server open"
ended one 0
for n in 0 1 2 3 4 5; do
    ! read -r -t 10 -u "${sockets[n]}" line || fail "connection $n is told $line at the end"
done
! (: <> "/dev/tcp/127.0.0.1/$port") 2> /dev/null || fail "somebody listens still"
[ ! -s one.err ] || fail "it warns: $(head -n 3 one.err)"
