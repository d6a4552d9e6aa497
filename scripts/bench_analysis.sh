#!/usr/bin/env bash
# Times `rvd list`, which analyses a whole program, on executables with 125, 250, 500 and 1,000 functions that a script makes.
# Run it after `rt ci` has built the program.
. "$(dirname "$0")/program.sh"
needs python3
for count in 125 250 500 1000; do
  python3 "$top/scripts/generated_image.py" "$count" "$work/image" || exit 1
  start=$(date +%s%N)
  "$program" list "$work/image" >"$work/listing" || { echo "bench_analysis: failed at $count functions"; exit 1; }
  stop=$(date +%s%N)
  # Each function has eight instructions, two references, itself, its body and its string; besides there are two blocks and
  # an entry point.
  wanted=$((13 * count + 3))
  [ "$(head -n 1 "$work/listing")" = "listing $wanted" ] || { echo "bench_analysis: $(head -n 1 "$work/listing") instead of $wanted"; exit 1; }
  echo "bench_analysis: $count functions: $(((stop - start) / 1000000)) ms"
done
