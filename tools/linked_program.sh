#!/usr/bin/env bash
# Links programs with the assembler and linker of Debian's package binutils-riscv64-unknown-elf, and runs them.
# Where these are missing, it says so and does nothing. `rt` has to be on the path.
set -eu
cd "$(dirname "$0")/.."
tool=riscv64-unknown-elf
if ! command -v "$tool-as" >/dev/null || ! command -v "$tool-ld" >/dev/null; then
    echo "skipped: $tool-as or $tool-ld is missing"
    exit 0
fi
work=$(mktemp -d)
trap 'rm -rf "$work"' EXIT

# One program with text alone, and one whose text and data are segments of their own.
cat >"$work/exit.s" <<'END'
        .globl _start
_start: li   a0, 7
        li   a7, 93
        ecall
END
cat >"$work/hello.s" <<'END'
        .globl _start
_start: li   a0, 1
        lui  a1, %hi(text)
        addi a1, a1, %lo(text)
        li   a2, 6
        li   a7, 64
        ecall
        li   a0, 0
        li   a7, 93
        ecall
        .data
text:   .ascii "hello\n"
END
head -c 32 /dev/zero >"$work/key"

# run NAME STATUS REPORT OUTPUT
run() {
    "$tool-as" -march=rv32im -mabi=ilp32 -o "$work/$1.o" "$work/$1.s"
    "$tool-ld" -m elf32lriscv --no-relax -Ttext=0x10000 -Tdata=0x20000 -o "$work/$1" "$work/$1.o"
    printf '%b' "$3" >"$work/wanted"
    status=0
    (cd crates/ascend && rt run -- run "elf=$work/$1" "key=$work/key" "output=$work/output") >"$work/log" 2>&1 \
        || status=$?
    tail -n 10 "$work/log" | head -n 2 >"$work/report"
    cmp "$work/report" "$work/wanted"
    printf '%b' "$4" | cmp - "$work/output"
    [ "$status" -eq "$2" ]
    echo "$1: as wanted"
}
run exit 0 'end exit 7\ninstructions 3\n' ''
run hello 0 'end exit 0\ninstructions 9\n' 'hello\n'
