#!/bin/bash
# build.sh [FOLDER]   builds every program of programs.txt with the stock GNU toolchain, into FOLDER (elf/)
#
# The committed files were made by gcc 12.2.0 with picolibc 1.8 (Debian: gcc-riscv64-unknown-elf,
# picolibc-riscv64-unknown-elf). Another compiler makes other code, and then the counts of steps in
# cases.txt are others too.
set -e
cd "$(dirname "$0")"
target=${1:-elf}
compiler=(riscv64-unknown-elf-gcc -march=rv32im -mabi=ilp32)
library=(--specs=picolibc.specs -ffunction-sections -fdata-sections)
quiet=(-Wl,--no-warn-rwx-segments -Wl,--build-id=none)
room=$(mktemp -d)
trap 'rm -rf "$room"' EXIT

"${compiler[@]}" "${library[@]}" -c guest/crt0.S -o "$room/crt0.o"
"${compiler[@]}" "${library[@]}" -O2 -Wall -fno-builtin -c guest/sys.c -o "$room/sys.o"
mkdir -p "$target"
grep -v '^#' programs.txt | while read -r name source flags; do
  # (the flags are several words)
  case $flags in
    bare*) "${compiler[@]}" -nostdlib -nostartfiles -static -Wl,--no-relax "${quiet[@]}" ${flags#bare} \
             "src/$source" -o "$target/$name.elf" ;;
    *) "${compiler[@]}" "${library[@]}" -static -nostartfiles -T guest/guest.ld "${quiet[@]}" -Wl,--strip-debug "$room/crt0.o" \
         -Wall -Wextra $flags "src/$source" -lm "$room/sys.o" -o "$target/$name.elf" ;;
  esac
done
