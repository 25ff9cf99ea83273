#!/usr/bin/env bash
# Makes the ELF files that ship with the top crate from the sources here, by Debian 12's gcc-riscv64-unknown-elf (12.2.0) and
# picolibc-riscv64-unknown-elf (1.8), into FOLDER or else into that crate's data.
# usage: guide/make-shipped.sh [FOLDER]
set -e
folder=$(realpath "${1:-$(dirname "$0")/../crates/rv_tool/data}")
cd "$(dirname "$0")"
gcc=riscv64-unknown-elf-gcc
flags=(-march=rv32im -mabi=ilp32 -Os -fno-ident -ffunction-sections -fdata-sections -T runtime/program.ld -Wl,--gc-sections -s)
for name in count sha256; do
    $gcc "${flags[@]}" -ffreestanding -nostdlib -o "$folder/$name.elf" runtime/start.S runtime/plain.c "examples/$name.c" -lgcc
done
$gcc --specs=picolibc.specs "${flags[@]}" -nostartfiles -o "$folder/ledger.elf" runtime/start.S runtime/libc.c examples/ledger.c
for name in count sha256 ledger; do
    riscv64-unknown-elf-objcopy --remove-section .comment --remove-section .riscv.attributes "$folder/$name.elf"
    chmod 644 "$folder/$name.elf"
done
