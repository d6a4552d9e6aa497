#!/usr/bin/env bash
# Compiles the rv32i sample into a folder, once for each level of optimisation: 0.o, 1.o, 2.o and s.o. It needs clang.
set -eu
sample=$(dirname "$0")/rv32i_sample.c
for level in 0 1 2 s; do
    clang --target=riscv32 -march=rv32i -mabi=ilp32 -mno-relax -nostdlib -ffreestanding "-O$level" \
        -c "$sample" -o "$1/$level.o"
done
