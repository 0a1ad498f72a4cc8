# What a request may be: its head, its body and their limits, the host that it is for; and that a connection ends behind what is none.
source "$(dirname "$0")/parts.bash"
web_configuration
mkfifo input
exec {keeps}<> input
held+=("$keeps")
input=input web_server one map.sock --until-stdin-ends
host="Host: 127.0.0.1:$port"
ends="Connection: close"
point="POST /collections/mast/items HTTP/1.1"
type="Content-Type: application/geo+json"
# is WANTED LINE..: a request of these lines, with "$body" behind them, gets these statuses, each with a blank behind it. It has a
# connection of its own, which the server ends. All that is answered is in $answer.
is() {
    local wanted=$1 socket line got="" ended=0
    shift
    exec {socket}<> "/dev/tcp/127.0.0.1/$port" || fail "nobody listens at $port"
    printf -v line '%s\r\n' "$@" ""
    printf '%s' "$line$body" >&"$socket"
    answer=""
    read -r -d '' -t 20 -u "$socket" answer || ended=$?
    exec {socket}>&-
    [ "$ended" = 1 ] || fail "${1:0:60}: the connection stays open: $answer"
    while read -r line; do
        [[ $line != *HTTP/1.1\ [1-5][0-9][0-9]\ * ]] || { line=${line##*HTTP/1.1 } && got+="${line:0:3} "; }
    done <<< "$answer"
    [ "$got" = "$wanted " ] || fail "${1:0:60}: $got, not $wanted: ${answer:0:500}"
}
# has TEXT: it is in the last answer.
has() {
    [[ $answer == *"$1"* ]] || fail "no $1 in $answer"
}
body=""
is 200 "GET /conformance HTTP/1.1" "$host" "$ends"
length=${answer#*content-length: }
length=${length%%$'\r'*}
is 200 "HEAD /conformance HTTP/1.1" "$host" "$ends"
has $'content-length: '"$length"$'\r\n'
[[ $answer != *"{"* ]] || fail "a body behind a head: $answer"
# For whom it is.
is 200 "GET /conformance HTTP/1.1" "Host: localhost" "$ends"
is 200 "GET http://127.0.0.1:$port/conformance HTTP/1.1" "Host: elsewhere.example" "$ends"
is 421 "GET /conformance HTTP/1.1" "Host: elsewhere.example" "$ends"
is 421 "GET http://elsewhere.example/conformance HTTP/1.1" "$host" "$ends"
is 400 "GET /conformance HTTP/1.1" "$ends"
is 405 "OPTIONS /conformance HTTP/1.1" "$host" "$ends"
has $'allow: GET, HEAD\r\n'
# A body in pieces, and one that waits until it is asked for.
body=$'4\r\n{"ty\r\n4;x=1\r\npe":\r\n0\r\n\r\n'
is 400 "$point" "$host" "$ends" "$type" "Transfer-Encoding: chunked"
has '"code":"J1"'
body='{"ty'
is "100 400" "$point" "$host" "$ends" "$type" "Content-Length: 4" "Expect: 100-continue"
has '"code":"J1"'
# The longest body, and one that is longer.
printf -v body '%131072s' ""
is 400 "$point" "$host" "$ends" "$type" "Content-Length: 131072"
has '"code":"J1"'
body=""
is 413 "$point" "$host" "$type" "Content-Length: 131073"
# The most fields, one more, and the longest head.
fields=()
for ((n = 0; n < 62; n++)); do
    fields+=("x: $n")
done
is 200 "GET /conformance HTTP/1.1" "$host" "$ends" "${fields[@]}"
is 431 "GET /conformance HTTP/1.1" "$host" "$ends" "${fields[@]}" "x: 62"
printf -v head '%s\r\n' "GET /conformance HTTP/1.1" "$host" "$ends" "x: " ""
printf -v filling '%*s' $((16384 - ${#head})) ""
filling=${filling// /y}
is 200 "GET /conformance HTTP/1.1" "$host" "$ends" "x: $filling"
# What is no request ends its connection. (Nothing may come behind it: a connection that is closed with something unread is reset.)
is 400 "HELLO north" "$host"
is 400 "$point" "$host" "Content-Length: 4" "Transfer-Encoding: chunked"
is 501 "$point" "$host" "Transfer-Encoding: gzip, chunked"
# Several at once are answered in their order, up to the one that is the last.
is "200 404 405" "GET /conformance HTTP/1.1" "$host" "" "GET /nowhere HTTP/1.1" "$host" "" "DELETE / HTTP/1.1" "$host" "$ends"
exec {keeps}>&-
ended one 0
[ ! -s one.err ] || fail "it warns: $(head -n 3 one.err)"
