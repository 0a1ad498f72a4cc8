# A server none of whose workers can be started ends with a fault, and frees its path.
source "$(dirname "$0")/parts.bash"
# A thread's stack is as large as the first limit, and more than what all the memory may have.
limits="-s 4000000 -v 2000000" begin one serve --socket map.sock --connections 1
ended one 1
complains one "landmap: cannot start a worker"
complains one "a worker could not be started"
[ ! -e map.sock ] || fail "the path is not free"
