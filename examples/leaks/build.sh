#!/usr/bin/env bash
# Makes the ELF files of the C programs in this folder anew, with Debian's packages clang and lld, and says of each
# whether it has the same bytes as the one that lies here. With the word `replace` the new ones take their place. Where
# the compiler is missing, it says so and does nothing. The status is 1 where bytes differ.
set -eu
cd "$(dirname "$0")"
if ! command -v clang >/dev/null || ! command -v ld.lld >/dev/null; then
    echo "skipped: clang or ld.lld is missing"
    exit 0
fi
flags=(--target=riscv32-unknown-elf -march=rv32im -mabi=ilp32 -O2 -ffreestanding -nostdlib -Wall -Wextra -fuse-ld=lld
    "-Wl,--no-relax" "-Wl,--strip-all" "-Wl,-z,max-page-size=64" -T ../program.ld)
work=$(mktemp -d)
trap 'rm -rf "$work"' EXIT
clang --version | head -n 1
status=0
for name in compare sbox power tree steady; do
    clang "${flags[@]}" -o "$work/$name.elf" ../start.s "$name.c"
    if cmp -s "$work/$name.elf" "$name.elf"; then
        echo "$name.elf: the same bytes"
    elif [ "${1-}" = replace ]; then
        cp "$work/$name.elf" "$name.elf"
        echo "$name.elf: replaced"
    else
        echo "$name.elf: other bytes"
        status=1
    fi
done
exit "$status"
