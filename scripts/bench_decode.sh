#!/usr/bin/env bash
# Prints how many words a second rvd_decode's decode reads on one core, beside the rates of llvm-objdump and GNU objdump
# on the same words in the same run: the text of the compiled sample, over and over. It needs clang, llvm-objcopy and
# python3; a disassembler that is missing is left out. The disassemblers' time has their printing in it.
set -eu
cd "$(dirname "$0")/.."

words=$((${1:-1} * 1024 * 1024))
rounds=${2:-100}
if ! command -v clang >/dev/null || ! command -v llvm-objcopy >/dev/null || ! command -v python3 >/dev/null; then
    echo "bench_decode: skipped, for want of clang, llvm-objcopy or python3"
    exit 0
fi

work=$(mktemp -d)
trap 'rm -rf "$work"' EXIT
scripts/compile_sample.sh "$work"
for level in 0 1 2 s; do
    llvm-objcopy -O binary --only-section=.text "$work/$level.o" "$work/$level.bin"
done
python3 - "$work" "$words" <<'EOF'
import sys
text = b"".join(open(f"{sys.argv[1]}/{level}.bin", "rb").read() for level in "012s")
size = 4 * int(sys.argv[2])
open(f"{sys.argv[1]}/words.bin", "wb").write((text * (size // len(text) + 1))[:size])
EOF
echo ".text; .incbin \"$work/words.bin\"" |
    clang --target=riscv32 -march=rv32i -c -x assembler - -o "$work/words.o"
[ -x crates/bench_decode/out/bench_decode ] || (cd crates/bench_decode && rt run -- 1 data/words.bin >/dev/null)

# The processor seconds that a command takes, with its output thrown away.
seconds() {
    local TIMEFORMAT=%U
    { time "$@" >/dev/null 2>/dev/null; } 2>&1
}

rate() {
    python3 -c 'import sys; print(f"{sys.argv[1]:<14} {float(sys.argv[2]) / 1e6 / max(float(sys.argv[3]), 1e-3):8.2f} million words a second")' "$@"
}

once=$(seconds crates/bench_decode/out/bench_decode 0 "$work/words.bin")
all=$(seconds crates/bench_decode/out/bench_decode "$rounds" "$work/words.bin")
rate rvd_decode $((words * rounds)) "$(python3 -c "print($all - $once)")"
command -v llvm-objdump >/dev/null &&
    rate llvm-objdump "$words" "$(seconds llvm-objdump -d -M no-aliases "$work/words.o")"
for gnu in riscv64-linux-gnu-objdump riscv64-unknown-elf-objdump; do
    command -v "$gnu" >/dev/null && rate "GNU objdump" "$words" "$(seconds "$gnu" -d -M no-aliases "$work/words.o")" && break
done
exit 0
