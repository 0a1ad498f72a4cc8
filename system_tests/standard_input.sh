# `-` is standard input, of a script, of what is drawn, and of a configuration. A file of that name is ./-.
source "$(dirname "$0")/parts.bash"
script=$'n: HELLO north\nn: ADD 1 mast POINT (3 4)\nn: COMMIT\nn: SEARCH point(3 4)\n'
replies=$'n: hello north\nn: staged\nn: applied 1\nn: rows 1\nn: 1 1 north mast POINT (3 4)'
printf 'n: HELLO south\n' > ./-
told=$(printf %s "$script" | "$program" script -) || fail "script -: status $?"
[ "$told" = "$replies" ] || fail "script -: $told"
told=$("$program" script ./- < /dev/null) || fail "script ./-: status $?"
[ "$told" = "n: hello south" ] || fail "script ./-: $told"
subjects='[{"name":"ines","office":"roads","role":"surveyor"}]'
policies='{"root":{"policy":"p","combine":"first-applicable","rules":[{"rule":"all","effect":"permit"}]}}'
echo "{\"subjects\":$subjects,\"policies\":$policies}" > one.json
printf 'n: HELLO ines\n' > one.map
told=$("$program" script --config - one.map < one.json) || fail "--config -: status $?"
[ "$told" = "n: hello ines" ] || fail "--config -: $told"
printf %s "$script" > two.map
printf '%s\n' "$replies" | "$program" draw two.map > drawn || fail "draw: status $?"
[[ $(cat drawn) == "<svg "*"</svg>" ]] || fail "draw: $(head -c 200 drawn)"
cp two.map ./-
printf '%s\n' "$replies" | "$program" draw ./- > again || fail "draw ./-: status $?"
cmp -s drawn again || fail "draw ./- draws something else"
