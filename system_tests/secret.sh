# A secret: two lines, of which the second has the digest of the first, and is a key of a configuration.
source "$(dirname "$0")/parts.bash"
policies='{"root":{"policy":"p","combine":"first-applicable","rules":[{"rule":"all","effect":"permit"}]}}'
# checks STATUS TEXT KEYS: what is told of a configuration of `ines` with these keys.
checks() {
    local status=0 said
    printf '{"subjects":[{"name":"ines","office":"roads","role":"surveyor"}],"policies":%s,"keys":%s}' "$policies" "$3" > config.json
    said=$("$program" check --config config.json 2> errors | tail -n 1; exit "${PIPESTATUS[0]}") || status=$?
    [ "$status" = "$1" ] || fail "$3: status $status, not $1"
    [ "$said" = "$2" ] || fail "$3: $said, not $2"
}

# Two lines, and nothing on standard error.
"$program" secret ines > first 2> errors || fail "no secret: $(cat errors)"
[ ! -s errors ] || fail "it says $(cat errors)"
[ "$(wc -l < first)" = 2 ] || fail "not two lines: $(cat first)"
secret=$(head -n 1 first)
entry=$(tail -n 1 first)
[[ $secret =~ ^[A-Za-z0-9_-]{43}$ ]] || fail "no secret: $secret"
# 32 bytes leave two bits of the last character, which are 0.
[[ $secret =~ [AEIMQUYcgkosw048]$ ]] || fail "no secret of 32 bytes: $secret"
digest=$(printf %s "$secret" | sha256sum | cut -d ' ' -f 1)
[ "$entry" = "{\"subject\": \"ines\", \"sha256\": \"$digest\"}" ] || fail "the entry is $entry, not that of $digest"

# No two are the same.
"$program" secret ines > second || fail "no second secret"
other=$(tail -n 1 second)
[ "$secret" != "$(head -n 1 second)" ] && [ "$entry" != "$other" ] || fail "twice the same secret"

# Its entry is a key; so are two of one subject, but not the same twice, and none of a subject that is not there.
checks 0 'http: 0 collections, 1 key' "[$entry]"
checks 0 'http: 0 collections, 2 keys' "[$entry,$other]"
checks 0 'http: 0 collections, 1 key' "[${entry/$digest/${digest^^}}]"
checks 1 'B2 at "/keys/1"' "[$entry,$entry]"
checks 1 'B2 at "/keys/1"' "[$entry,${entry/$digest/${digest^^}}]"
checks 1 'B2 at "/keys/0/subject"' "[${entry/ines/ada}]"
checks 1 'B2 at "/keys/0/sha256"' "[${entry/$digest/${digest%?}}]"
checks 1 'B2 at "/keys/1"' "[$other,${entry/sha256/sha512}]"
checks 1 'B2 at "/keys"' "$entry"
checks 0 'http: 0 collections, the field landmap-subject is trusted' '[],"trusted-field":true'
checks 1 'B2 at "/trusted-field"' "[$entry],\"trusted-field\":true"

# A wrong name, and a full disk.
for name in Ines "" "ines " "$(printf 'a%.0s' {1..33})"; do
    status=0
    "$program" secret "$name" > said 2> errors || status=$?
    [ "$status" = 2 ] && [ ! -s said ] || fail "$name: status $status, $(cat said)"
    grep -qF "invalid value '$name' for '<NAME>'" errors || fail "$name: it says $(cat errors)"
done
"$program" secret "$(printf 'a%.0s' {1..32})" > said || fail "no secret for a name of 32"
status=0
"$program" secret ines > /dev/full 2> errors || status=$?
[ "$status" = 1 ] && [ "$(cat errors)" = "landmap: cannot write" ] || fail "to a full disk: status $status, $(cat errors)"
