# The path is free behind a server that ends, and behind one that ends by a fault.
source "$(dirname "$0")/parts.bash"
server one map.sock --connections 1
[ -S map.sock ] || fail "there is no socket"
answered map.sock "SEARCH POINT (3 4)" "rows 0"
ended one 0
[ ! -e map.sock ] || fail "the path is not free"
output=/dev/full begin two serve --socket map.sock --connections 1
ended two 1
complains two "landmap: cannot write"
[ ! -e map.sock ] || fail "the path is not free behind a fault"
# So are both paths of a server that answers by HTTP too.
web_configuration
sed 's/"anonymous"/"public": "https:\/\/maps.agency.example", "anonymous"/' map.json > public.json
output=/dev/full begin three serve --socket map.sock --config public.json --http-socket web.sock
ended three 1
complains three "landmap: cannot write"
[ ! -e map.sock ] && [ ! -e web.sock ] || fail "a path is not free behind a fault"
