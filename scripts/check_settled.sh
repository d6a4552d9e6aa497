#!/usr/bin/env bash
# Shows on a compiled program that a whole analysis leaves nothing to do: what `rvd list` prints is what `rvd play` prints after
# two analyses, and the second one changes nothing. Run it after `rt ci` has built the program.
. "$(dirname "$0")/program.sh"
file=${1-}
if [ -z "$file" ]; then
  file=$work/sample.elf
  # Functions with loops, calls, branches and texts, some thousand instructions in all.
  {
    echo 'volatile int sink; int f0(int n) { return n; }'
    for i in $(seq 1 50); do
      echo "int f$i(int n) { const char *t = \"text of $i\"; for (int k = 0; k < n; k++) sink += t[k % 7] * f$((i - 1))(k); return n > $i ? sink : n; }"
    done
    echo 'void _start(void) { for (;;) sink = f50(sink); }'
  } >"$work/sample.c"
  clang --target=riscv32-unknown-elf -O1 -march=rv32i -mabi=ilp32 -mno-relax -nostdlib -ffreestanding -fno-builtin -fuse-ld=lld \
    -Wl,--unresolved-symbols=ignore-all "$work/sample.c" -o "$file" 2>"$work/log" || { echo "check_settled: skipped: $(head -n 1 "$work/log")"; exit 0; }
fi
printf 'events 1 1\ns1 full\nw1 settle 64\ns1 full\nw1 settle 64\n' >"$work/events"
"$program" list "$file" >"$work/listed" || { echo "check_settled: list failed"; exit 1; }
"$program" play "$file" "$work/events" >"$work/played" || { echo "check_settled: play failed"; exit 1; }
sed -n '/^listing /,$p' "$work/played" | cmp -s - "$work/listed" || { echo "check_settled: the listings differ"; exit 1; }
sed '/^listing /,$d' "$work/played" | tail -n 2 | grep -q ' full s1$' || { echo "check_settled: the second analysis changes something"; exit 1; }
echo "check_settled: $(head -n 1 "$work/listed"), $(grep -c ' code ' "$work/listed") instructions: the second analysis changes nothing"
