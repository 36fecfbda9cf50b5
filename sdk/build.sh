#!/bin/sh
# build.sh: compiles the start code and the library that jet-gcc links programs with, into the folder out beside this
# file. `./install` calls it, and jet-gcc does where nothing was built yet.
set -eu
cd "$(dirname "$0")"
command -v riscv64-unknown-elf-gcc >/dev/null || {
    echo "jet-gcc: there is no riscv64-unknown-elf-gcc (Debian's gcc-riscv64-unknown-elf)" >&2
    exit 1
}
[ -e /usr/lib/picolibc/riscv64-unknown-elf/include/stdio.h ] || {
    echo "jet-gcc: there is no picolibc (Debian's picolibc-riscv64-unknown-elf)" >&2
    exit 1
}
if ! mkdir -p out 2>/dev/null || ! [ -w out ]; then
    echo "jet-gcc: its library isn't built yet, and $PWD/out can't be written: give this once as who installed it" >&2
    exit 1
fi
# What is built is put in place whole, so that two builds at a time don't meet.
made=$(mktemp -d)
trap 'rm -r "$made"' EXIT
for file in start.S calls.S words.c content.c files.c descriptors.c folders.c streams.c system.c lacks.c new.cc; do
    riscv64-unknown-elf-gcc -march=rv32im -mabi=ilp32 --specs=./jet.specs -B./ -Os -g -Wall -Wextra -ffunction-sections \
        -fdebug-prefix-map="$PWD"=jet -c "$file" -o "$made/${file%.*}.o"
done
# What a program defines under one of these names goes before.
(
    cd "$made"
    mv start.o start
    for file in *.o; do
        riscv64-unknown-elf-nm -g --defined-only "$file" | sed 's/.* //' >names
        riscv64-unknown-elf-objcopy --weaken-symbols=names "$file"
    done
    riscv64-unknown-elf-ar rcsD libjet.a ./*.o
    mv start start.o
)
for file in start.o libjet.a; do
    mv "$made/$file" "out/$file.$$"
    mv "out/$file.$$" "out/$file"
done
