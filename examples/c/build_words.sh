#!/usr/bin/env bash
# Makes the image of a C program that uses picolibc, a C library for small machines: build_words.sh [OUT] (words.bin beside
# this file). It needs Debian's packages gcc-riscv64-unknown-elf and picolibc-riscv64-unknown-elf. The library's own start
# file and linker script take the first 64 KiB of RAM for the image, and the next for variables, heap and stack.
set -eu
here=$(cd "$(dirname "${BASH_SOURCE[0]}")" && pwd)
out=${1:-$here/words.bin}
elf=$(mktemp)
trap 'rm -f "$elf"' EXIT
riscv64-unknown-elf-gcc --specs=picolibc.specs --crt0=hosted -march=rv32im -mabi=ilp32 -Os -Wall -Wextra \
  -Wl,--defsym=__flash=0x80000000,--defsym=__flash_size=0x10000,--defsym=__ram=0x80010000,--defsym=__ram_size=0x10000 \
  -Wl,--defsym=__stack_size=0x1000 -o "$elf" "$here/words.c" "$here/console.c"
riscv64-unknown-elf-objcopy -O binary "$elf" /dev/stdout >"$out"
