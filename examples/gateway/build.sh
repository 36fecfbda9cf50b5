#!/bin/sh
# build.sh PROG [OPTION..]: builds the gateway as the file PROG.
prog=$1
shift
exec riscv64-unknown-elf-gcc -march=rv32im -mabi=ilp32 -O1 "$@" -ffreestanding -nostdlib -static \
    -T link.ld start.S gateway.c text.c -lgcc -o "$prog"
