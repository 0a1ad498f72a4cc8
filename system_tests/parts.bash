# What the system tests share. A test begins with
#   source "$(dirname "$0")/parts.bash"
# It stands in an empty folder of its own then, and "$program" is the program. It fails by `fail WHY`, or by a status that is not 0.
set -uo pipefail
program=$1
declare -A started=() # the processes that the test has started and not waited for, by their names
declare -A speaks=()  # where a client's lines are written
declare -A hears=()   # where its replies are read
held=()               # the descriptors of both; the program gets none of them

# Ends the test, and says why.
fail() {
    echo "$*"
    exit 1
}

# Ends what was started, whatever happens.
finish() {
    local pid
    # Bash need not tell of each that is killed.
    exec 2> /dev/null
    for pid in "${started[@]}"; do
        kill -KILL "$pid" 2> /dev/null
    done
    wait
}
trap finish EXIT
trap 'exit 143' TERM INT HUP
# A client that is gone is seen by what it says.
trap '' PIPE

# await COMMAND..: until the command succeeds, for ten seconds at most.
await() {
    local end=$((SECONDS + 10))
    until "$@"; do
        [ "$SECONDS" -lt "$end" ] || return 1
        sleep 0.02
    done
}

# begin NAME WORD..: starts the program with these words. It reads from the file $input, or has no input; it writes to the file
# $output, or NAME.out, and to NAME.err. Where $limits is set, it runs under these limits of `ulimit`, as "-n 16".
begin() {
    local name=$1
    shift
    : > "$name.out"
    : > "$name.err"
    (
        local fd
        trap - PIPE
        for fd in "${held[@]}"; do
            exec {fd}>&-
        done
        [ -z "${limits:-}" ] || ulimit $limits || exit
        exec "$program" "$@" < "${input:-/dev/null}" > "${output:-$name.out}" 2> "$name.err"
    ) &
    started[$name]=$!
}

# ended NAME STATUS: waits until what has this name has ended, with this status.
ended() {
    local status=0
    wait "${started[$1]}" || status=$?
    unset "started[$1]"
    [ "$status" = "$2" ] || fail "$1 ended with status $status, not $2: $(cat "$1.err")"
}

# lives NAME: whether it has not ended.
lives() {
    kill -0 "${started[$1]}" 2> /dev/null
}

# told NAME LINE..: these lines, and no others, are what it has written.
told() {
    local name=$1 wanted
    shift
    wanted=$(printf '%s\n' "$@")
    [ "$(cat "$name.out")" = "$wanted" ] || fail "$name told $(cat "$name.out"), not $wanted"
}

# complains NAME TEXT: it has written this text to standard error.
complains() {
    [[ $(cat "$1.err") == *"$2"* ]] || fail "$1 says $(cat "$1.err"), not $2"
}

# Whether a server listens.
is_listening() {
    [ -s "$1.out" ] || ! lives "$1"
}

# server NAME PATH OPTION..: starts a server, and waits until it listens.
server() {
    local name=$1 path=$2
    shift 2
    begin "$name" serve --socket "$path" "$@"
    await is_listening "$name"
    [ "$(head -n 1 "$name.out")" = "listening $path" ] || fail "$name does not listen: $(cat "$name.err")"
}

# client NAME PATH: starts a client, to which `say` and `hear` speak.
client() {
    local to from
    mkfifo "$1.to" "$1.from"
    input=$1.to output=$1.from begin "$1" connect --socket "$2"
    exec {to}> "$1.to" {from}< "$1.from"
    speaks[$1]=$to
    hears[$1]=$from
    held+=("$to" "$from")
}

# say NAME LINE..: sends lines.
say() {
    local name=$1
    shift
    printf '%s\n' "$@" 2> /dev/null >&"${speaks[$name]}"
}

# hear NAME LINE..: the next lines of its replies are these, each within ten seconds.
hear() {
    local name=$1 line wanted
    shift
    for wanted in "$@"; do
        read -r -t 10 -u "${hears[$name]}" line || fail "$name hears nothing, not: $wanted"
        [ "$line" = "$wanted" ] || fail "$name hears: $line, not: $wanted"
    done
}

# ask NAME LINE REPLY..: sends a line, and hears its reply.
ask() {
    local name=$1 line=$2
    shift 2
    say "$name" "$line" || fail "$name is gone"
    hear "$name" "$@"
}

# waits_on NAME: for half a second it hears nothing.
waits_on() {
    local line
    ! read -r -t 0.5 -u "${hears[$1]}" line || fail "$1 hears: $line"
}

# leave NAME [STATUS]: ends its input, and waits until it has ended.
leave() {
    local to=${speaks[$1]}
    exec {to}>&-
    ended "$1" "${2:-0}"
}

# talk PATH LINE..: the replies to these lines, of a client that ends with them. A client that has ended already reads none of them, which
# is no fault.
talk() {
    local path=$1
    shift
    "$program" connect --socket "$path" < <(printf '%s\n' "$@" 2> /dev/null)
}

# answered PATH LINE REPLY..: one session with this line behind its HELLO.
answered() {
    local path=$1 line=$2 told
    shift 2
    told=$(talk "$path" "HELLO north" "$line" BYE) || fail "$line: the talk ended with status $?"
    [ "$told" = "$(printf '%s\n' "hello north" "$@" bye)" ] || fail "$line: $told"
}

# web_server NAME PATH OPTION..: starts a server as `server` does, which also answers HTTP at a port of this machine that is free: it is
# told in $port. A configuration for it is `map.json`, which `web_configuration` writes.
web_server() {
    local name=$1 path=$2 try
    shift 2
    for ((try = 0; try < 20; try++)); do
        port=$((20000 + RANDOM % 20000))
        begin "$name" serve --socket "$path" --config map.json --http "127.0.0.1:$port" "$@"
        await is_listening "$name"
        [ ! -s "$name.out" ] || break
        wait "${started[$name]}"
        unset "started[$name]"
    done
    [ "$(cat "$name.out")" = "$(printf 'listening %s\nlistening http://127.0.0.1:%s' "$path" "$port")" ] ||
        fail "$name does not listen: $(cat "$name.out" "$name.err")"
}

# web_configuration: an office of roads, in which everybody reads masts and roads, and `guest` asks by HTTP.
web_configuration() {
    cat > map.json <<'JSON'
{"subjects": [
   {"name": "ines", "office": "roads", "role": "surveyor", "steward": true},
   {"name": "guest", "office": "none", "role": "guest"}],
 "policies": {"root": {"policy": "offices", "combine": "first-applicable", "rules": [
   {"rule": "own-features", "effect": "permit", "when": [{"own": true}]},
   {"rule": "everybody-reads-masts", "effect": "permit", "target": [[[{"action": "read"}, {"class": "mast"}]]]}]}},
 "grid": {"origin": ["7", "46"], "decimals": 7},
 "anonymous": "guest",
 "collections": ["mast", "road"]}
JSON
}

# get TARGET [FIELD..]: what is answered to a request for this target at $port, by a connection of its own: the status in $status,
# the fields in $fields, the body in $body.
get() {
    request GET "$1" "" "${@:2}"
}

# request METHOD TARGET BODY [FIELD..]: the same by any method, with a body.
request() {
    local target=$2 sent=$3 line socket head=("$1 $2 HTTP/1.1" "Host: 127.0.0.1:$port" "Connection: close")
    [ -z "$sent" ] || head+=("Content-Length: ${#sent}")
    shift 3
    exec {socket}<> "/dev/tcp/127.0.0.1/$port" || fail "nobody listens at $port"
    { printf '%s\r\n' "${head[@]}" "$@" "" && printf '%s' "$sent"; } >&"$socket"
    status="" fields="" body=""
    read -r -t 10 -u "$socket" line || fail "$target is not answered"
    status=${line#HTTP/1.1 }
    status=${status%%$'\r'}
    while read -r -t 10 -u "$socket" line && [ "$line" != $'\r' ]; do
        fields+=${line%$'\r'}$'\n'
    done
    body=$(timeout 10 cat <&"$socket")
    exec {socket}>&-
}

# answers TARGET STATUS TEXT..: a request for this target has this status, and its body has these texts.
answers() {
    local target=$1 wanted=$2 text
    shift 2
    get "$target"
    [ "$status" = "$wanted" ] || fail "$target: $status, not $wanted: $body"
    for text in "$@"; do
        [[ $body == *"$text"* ]] || fail "$target has no $text: $body"
    done
}
