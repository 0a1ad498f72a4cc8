# Without --workers four sessions are answered side by side, and a fifth waits until one of them has ended.
source "$(dirname "$0")/parts.bash"
server one map.sock --connections 5
for n in 1 2 3 4; do
    client "c$n" map.sock
    ask "c$n" "HELLO north" "hello north"
done
client fifth map.sock
say fifth "HELLO south"
waits_on fifth
ask c1 BYE bye
hear fifth "hello south"
ask fifth BYE bye
for n in 2 3 4; do
    ask "c$n" BYE bye
done
ended one 0
