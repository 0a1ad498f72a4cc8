# With --http-socket a server answers by HTTP at the path of a second socket, which owner and group may use, and which is gone when it ends.
source "$(dirname "$0")/parts.bash"
web_configuration
sed 's/"anonymous"/"public": "https:\/\/maps.agency.example", "anonymous"/' map.json > public.json
mkfifo input
exec {keeps}<> input
held+=("$keeps")
input=input begin one serve --socket map.sock --config public.json --http-socket web.sock --until-stdin-ends
await is_listening one
told one "listening map.sock" "listening web.sock"
[ "$(stat -c '%a %F' web.sock)" = "660 socket" ] || fail "web.sock is $(stat -c '%a %F' web.sock)"
# To a line of a session it answers as HTTP answers what is no request.
told=$(talk web.sock "HELLO ines")
[[ $told == $'HTTP/1.1 400 Bad Request\r\n'* ]] || fail "it answers: $told"
# A server that was killed leaves both sockets; the next one takes them over, and lets an idle session of lines go.
kill -KILL "${started[one]}"
ended one 137 2> /dev/null
[ -e web.sock ] || fail "the path of HTTP is gone"
input=input begin two serve --socket map.sock --config public.json --http-socket web.sock --until-stdin-ends --takeover --idle 1
await is_listening two
told two "listening map.sock" "listening web.sock"
client silent map.sock
ask silent "HELLO ines" "hello ines"
await grep -q "a session ended by V1" two.err || fail "the silent client is not left: $(cat two.err)"
exec {keeps}>&-
ended two 0
[ ! -e web.sock ] || fail "the path of HTTP is not free"
