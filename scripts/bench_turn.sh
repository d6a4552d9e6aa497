#!/bin/sh
# Turns a second of the turn and of std's Mutex, with an empty critical section.
# It times the proved program, which `rt run -- both 1 1` in crates/bench_turn builds.
# usage: scripts/bench_turn.sh [ROUNDS]      ROUNDS: how often each thread takes the lock (default 100000)
set -eu
cd "$(dirname "$0")/.."
program=crates/bench_turn/out/bench_turn
rounds=${1:-100000}
if [ ! -x "$program" ]; then
    echo "bench_turn.sh: no $program: build it first, by 'rt run -- both 1 1' in crates/bench_turn" >&2
    exit 1
fi
printf '%-8s %8s %14s\n' lock threads turns/second
for threads in 1 2 4; do
    for lock in turn mutex; do
        start=$(date +%s%N)
        "$program" "$lock" "$threads" "$rounds" >/dev/null
        end=$(date +%s%N)
        printf '%-8s %8d %14d\n' "$lock" "$threads" $((threads * rounds * 1000000000 / (end - start)))
    done
done
