# A server whose store can't be written any more, here since its file may grow no further, answers nothing that does not last: it ends with
# Q2 and status 1, though its input goes on.
source "$(dirname "$0")/parts.bash"
trap '' XFSZ
mkdir store
mkfifo input
exec {keeps}<> input
held+=("$keeps")
limits="-f 400" input=input server one map.sock --store store --until-stdin-ends
client adds map.sock
ask adds "HELLO north" "hello north"
applied=0
for ((id = 1; id <= 5000; id++)); do
    say adds "ADD $id mast POINT (3 4)" COMMIT || break
    read -r -t 10 -u "${hears[adds]}" line && [ "$line" = staged ] || break
    read -r -t 10 -u "${hears[adds]}" line && [ "$line" = "applied $id" ] || break
    applied=$id
done
[ "$applied" -gt 0 ] && [ "$applied" -lt 5000 ] || fail "$applied lists were applied"
ended one 1
complains one "landmap: Q2 "
ended adds 1
# With room the next start has each list that was answered.
told=$(printf 'n: %s\n' "HELLO north" "SEARCH POINT (3 4)" | "$program" script --store store - 2> script.err | sed -n 's/^n: rows //p')
[ "${told:-0}" -ge "$applied" ] || fail "$applied lists were answered, and ${told:-none} are there: $(cat script.err)"
[ "$told" -le $((applied + 1)) ] || fail "$applied lists were answered, and $told are there"
