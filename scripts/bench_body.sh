#!/usr/bin/env bash
# Times the proposal of a function's body, for functions of 16,384, 32,768 and 65,536 instructions. The program that it is
# proposed on is made first, which isn't in the figure. Run it after `rt ci` has built the program.
set -u
top=$(cd "$(dirname "$0")/.." && pwd) || exit 1
program=$top/crates/bench_body/out/bench_body
[ -x "$program" ] || { echo "bench_body: build the program first: rt ci"; exit 1; }
for count in 16384 32768 65536; do
    wanted=$(printf '00010000-%08x' $((0x10000 + 4 * (count - 1) - 1)))
    best=
    for _ in 1 2 3; do
        text=$("$program" "$count" 2>&1) || { echo "bench_body: failed: $text"; exit 1; }
        body=${text%%$'\n'*}
        [ "$body" = "$wanted" ] || { echo "bench_body: $body instead of $wanted"; exit 1; }
        told=${text##*$'\n'}
        took=${told##* in }
        took=${took% ms}
        { [ -z "$best" ] || [ "$took" -lt "$best" ]; } && best=$took
    done
    echo "bench_body: $count instructions: $best ms, ${told%% in *}"
done
