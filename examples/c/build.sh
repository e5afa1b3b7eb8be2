#!/usr/bin/env bash
# Makes the image of a C program for a host: build.sh NAME [OUT], which is NAME.bin beside this file where it is left out;
# NAME is primes or ping. It needs Debian's package gcc-riscv64-unknown-elf.
set -eu
here=$(cd "$(dirname "${BASH_SOURCE[0]}")" && pwd)
name=$1
out=${2:-$here/$name.bin}
elf=$(mktemp)
trap 'rm -f "$elf"' EXIT
riscv64-unknown-elf-gcc -march=rv32im -mabi=ilp32 -O2 -ffreestanding -nostdlib -Wall -Wextra -Wl,--no-warn-rwx-segments,--no-relax \
  -T "$here/link.ld" -o "$elf" "$here/start.s" "$here/$name.c" -lgcc
riscv64-unknown-elf-objcopy -O binary "$elf" /dev/stdout >"$out"
