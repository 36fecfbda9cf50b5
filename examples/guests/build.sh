#!/bin/sh
# build.sh OUT [OPTION..]: builds the four guests, and makes their inputs, in the folder OUT.
set -eu
cd "$(dirname "$0")"
out=$1
shift
mkdir -p "$out"
for guest in parser cipher sort store; do
    riscv64-unknown-elf-gcc -march=rv32i -mabi=ilp32 -O2 "$@" -ffreestanding -fno-builtin -fno-tree-loop-distribute-patterns \
        -nostdlib -static -s -T ../gateway/link.ld ../gateway/start.S guest.c "$guest.c" -lgcc -o "$out/$guest.elf"
done
awk -v out="$out" -f inputs.awk
