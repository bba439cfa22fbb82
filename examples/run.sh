#!/usr/bin/env bash
# Builds the C program examples/euler.c with the machine's start code and link script, and runs it over encrypted
# memory. It needs clang and lld, or the compiler of Debian's package gcc-riscv64-unknown-elf; where neither is there,
# it says so and does nothing. `rt` has to be on the path. The last lines that it prints are the report, and then the
# program's output.
set -eu
cd "$(dirname "$0")/.."
flags="-march=rv32im -mabi=ilp32 -O2 -ffreestanding -nostdlib -Wl,--no-relax -T examples/program.ld"
if command -v clang >/dev/null && command -v ld.lld >/dev/null; then
    compiler="clang --target=riscv32-unknown-elf -fuse-ld=lld"
elif command -v riscv64-unknown-elf-gcc >/dev/null; then
    compiler="riscv64-unknown-elf-gcc"
else
    echo "skipped: neither clang with lld nor riscv64-unknown-elf-gcc is here"
    exit 0
fi
work=$(mktemp -d)
trap 'rm -rf "$work"' EXIT
$compiler $flags -o "$work/euler" examples/start.s examples/euler.c
head -c 32 /dev/zero >"$work/key"
(cd crates/ascend && rt run -- run "elf=$work/euler" "key=$work/key" "output=$work/output")
cat "$work/output"
