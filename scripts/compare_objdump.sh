#!/usr/bin/env bash
# Compares the text that rvd_decode gives each word of a compiled rv32i program with that of llvm-objdump and of GNU
# objdump. Only the spelling of registers and numbers is made alike. It needs clang, python3 and at least one of the two
# disassemblers, and is skipped where they are missing.
set -eu
cd "$(dirname "$0")/.."

gnu=
for name in riscv64-linux-gnu-objdump riscv64-unknown-elf-objdump riscv32-unknown-elf-objdump; do
    command -v "$name" >/dev/null && gnu=$name && break
done
llvm=
command -v llvm-objdump >/dev/null && llvm=llvm-objdump
if ! command -v clang >/dev/null || ! command -v python3 >/dev/null || [ -z "$gnu$llvm" ]; then
    echo "compare_objdump: skipped, for want of clang, python3 or a disassembler for RISC-V"
    exit 0
fi

work=$(mktemp -d)
trap 'rm -rf "$work"' EXIT
scripts/compile_sample.sh "$work"
[ -x crates/decode_lines/out/decode_lines ] || (cd crates/decode_lines && rt run <stdin >/dev/null)

for tool in $llvm $gnu; do
    for level in 0 1 2 s; do
        "$tool" -d -M no-aliases "$work/$level.o"
    done >"$work/theirs"
    python3 scripts/compare_objdump.py words "$work/theirs" >"$work/words"
    crates/decode_lines/out/decode_lines <"$work/words" >"$work/ours"
    python3 scripts/compare_objdump.py compare "$work/theirs" "$work/ours" "$("$tool" --version | grep -m1 -o 'LLVM version.*\|GNU objdump.*')"
done
