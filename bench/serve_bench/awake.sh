#!/usr/bin/env bash
# Runs a command while no processor sleeps: on each a loop of the idle class waits, which gives way to anything else at once.
#   bench/serve_bench/awake.sh COMMAND..
# On a virtual machine it takes the host tens of microseconds to wake a processor that sleeps, which is more than most requests take. What
# is left beside such loops is the time of the programs. (Linux does the same with `idle=poll`, or with the governor `haltpoll`.)
set -euo pipefail
loops=()
trap 'kill "${loops[@]}" 2> /dev/null || true' EXIT
for ((at = 0; at < $(nproc); at++)); do
    taskset -c "$at" chrt --idle 0 sh -c 'while :; do :; done' &
    loops+=($!)
done
"$@"
