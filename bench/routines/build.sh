#!/bin/sh
# Builds all routines: Debian's gcc-riscv64-unknown-elf. The files that are kept were made so, by gcc 12.2.0.
set -e
cd "$(dirname "$0")"
for source in *.c *.s; do
    name=${source%.*}
    case $name in patch | inside) script=open.ld ;; *) script=plain.ld ;; esac
    riscv64-unknown-elf-gcc -march=rv32im -mabi=ilp32 -O1 -nostdlib -nostartfiles -ffreestanding -static -Wall -Wno-unused-parameter \
        -Wl,--no-relax -Wl,--build-id=none -Wl,--no-warn-rwx-segments -Wl,-z,max-page-size=4096 -Wl,-T,$script "$source" -o "$name.elf"
    riscv64-unknown-elf-objcopy --strip-all "$name.elf"
done
