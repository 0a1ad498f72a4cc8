# What a server with HTTP refuses at its start: a configuration without a grid, a socket without an address for links, an address that is
# not of this machine, one without a port, one that another server has, a server that ends after some connections, more workers than there may be.
source "$(dirname "$0")/parts.bash"
web_configuration
grep -v '"grid"' map.json > flat.json
# refused STATUS TEXT WORD..
refused() {
    local wanted=$1 text=$2
    shift 2
    begin one serve --socket map.sock "$@"
    ended one "$wanted"
    complains one "$text"
    [ ! -s one.out ] || fail "it tells: $(cat one.out)"
    [ ! -e map.sock ] || fail "the path is not free: $*"
}
refused 1 "HTTP needs a grid" --config flat.json --http 127.0.0.1:8080
refused 1 '"public"' --config map.json --http-socket web.sock
refused 2 "on this machine alone" --config map.json --http 0.0.0.0:8080
refused 1 "a port that is not 0" --config map.json --http 127.0.0.1:0
refused 2 "4000001 is not in 1..=4000000" --features 4000001
refused 1 "at most 1024 together" --config map.json --http 127.0.0.1:8080 --workers 1017
refused 1 "at most 1024 together" --config map.json --http 127.0.0.1:8080 --workers 2 --http-workers 1023
refused 2 "--connections" --config map.json --http 127.0.0.1:8080 --connections 4
refused 1 "cannot bind nowhere/web.sock" --config <(sed 's/"anonymous"/"public": "https:\/\/maps.example", "anonymous"/' map.json) --http-socket nowhere/web.sock
mkfifo input
exec {keeps}<> input
held+=("$keeps")
input=input web_server first first.sock --until-stdin-ends
refused 1 "cannot bind http://127.0.0.1:$port" --config map.json --http "127.0.0.1:$port"
exec {keeps}>&-
ended first 0
