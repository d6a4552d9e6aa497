#!/usr/bin/env bash
# Compares the imported facts that `rvd list` prints with what readelf -lsW says of the same files: small
# programs of our own, compiled for rv32i with gcc and clang, as far as these are installed.
# Run it after `rt ci` has built the program. Debian has what it wants in the packages
# gcc-riscv64-unknown-elf, binutils-riscv64-unknown-elf, clang and lld.
. "$(dirname "$0")/program.sh"
readelf=$(command -v riscv64-unknown-elf-readelf || command -v readelf || command -v llvm-readelf)
[ -n "$readelf" ] || { echo "compare_readelf: skipped, no readelf"; exit 0; }
needs python3

cat > "$work/start.c" <<'END'
static int zeros[300];
int ready = 1;
const char greeting[] = "hello";
volatile int sink;
static int twice(int x) { return x + x; }
__attribute__((noinline)) int sum(const int *xs, int n) { int s = 0; for (int i = 0; i < n; i++) s += xs[i]; return s; }
__attribute__((weak)) void hook(void) {}
void _start(void) { hook(); sink = sum(zeros, 300) + twice(ready) + greeting[0]; for (;;) {} }
END
cat > "$work/bare.s" <<'END'
    .text
    .globl _start
    .type _start, @function
_start: addi a0, zero, 1
    jal ra, leaf
loop: jal zero, loop
    .type leaf, @function
leaf: jalr zero, 0(ra)
    .size leaf, .-leaf
    .set absolute, 0x12345678
    .globl absolute
END
made=""
build() { # NAME COMMAND..
  name=$1; shift
  command -v "$1" >/dev/null || return 0
  if "$@" -o "$work/$name" >"$work/log" 2>&1; then made="$made $name"; else echo "compare_readelf: $name isn't built: $(head -n 1 "$work/log")"; fi
}
for opt in -O0 -O2 -Os; do
  build "gcc$opt" riscv64-unknown-elf-gcc $opt -march=rv32i -mabi=ilp32 -nostdlib -nostartfiles -ffreestanding "$work/start.c"
  build "clang$opt" clang --target=riscv32-unknown-elf $opt -march=rv32i -mabi=ilp32 -nostdlib -ffreestanding -fuse-ld=lld "$work/start.c"
done
build gcc-bare riscv64-unknown-elf-gcc -march=rv32i -mabi=ilp32 -nostdlib -nostartfiles "$work/bare.s"
build clang-bare clang --target=riscv32-unknown-elf -march=rv32i -mabi=ilp32 -nostdlib -fuse-ld=lld "$work/bare.s"
[ -n "$made" ] || { echo "compare_readelf: skipped, no compiler for rv32i"; exit 0; }

failed=0
for name in $made; do
  "$program" list "$work/$name" > "$work/list" || { echo "compare_readelf: $name: rvd list ends with $?"; failed=1; continue; }
  grep ' imported ' "$work/list" > "$work/ours"
  "$readelf" -hlsW "$work/$name" > "$work/theirs" 2>/dev/null
  if python3 "$top/scripts/facts_of_readelf.py" < "$work/theirs" | diff - "$work/ours" > "$work/diff"; then
    echo "compare_readelf: $name: $(wc -l < "$work/ours") facts agree"
  else
    echo "compare_readelf: $name differs:"; head -20 "$work/diff"; failed=1
  fi
done
exit $failed
