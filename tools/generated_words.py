#!/usr/bin/env python3
"""Prints what the tests of rv32_asm and the rows of generated_run say of programs that are made from a number: the
words of the instructions, as LLVM's assembler gives them (where it is missing, none is printed), and for each seed and
count of data words the words and the hash that the program writes.
"""
import re
import shutil
import subprocess

# `la` and `li` as the two instructions that they stand for, and the branch by its offset
PROGRAM = """lui s0, 16
addi s0, s0, 116
lw s1, 0(s0)
addi s0, s0, 4
lui a0, 0
addi a0, a0, 0
lw t0, 0(s0)
slli t1, a0, 5
add a0, a0, t1
add a0, a0, t0
sw a0, 0(s0)
addi s0, s0, 4
addi s1, s1, -1
bne s1, zero, -28
lui a1, 16
addi a1, a1, 116
sw a0, 0(a1)
lui a0, 0
addi a0, a0, 1
lui a2, 0
addi a2, a2, 4
lui a7, 0
addi a7, a7, 64
ecall
lui a0, 0
addi a0, a0, 0
lui a7, 0
addi a7, a7, 93
ecall
"""


def instructions():
    """The words of the instructions."""
    command = ["llvm-mc", "-triple=riscv32", "-show-encoding"]
    printed = subprocess.run(command, input=PROGRAM, capture_output=True, text=True, check=True).stdout
    encodings = re.findall(r"encoding: \[(.*?)\]", printed)
    return [int.from_bytes(bytes(int(byte, 16) for byte in found.split(",")), "little") for found in encodings]


def data_words(seed, count):
    """The data words of a seed."""
    number, words = seed, []
    for _ in range(count):
        number = (number * 6364136223846793005 + 1442695040888963407) % 2**64
        words.append(number >> 32)
    return words


def hash_of(words):
    """The hash of words."""
    so_far = 0
    for word in words:
        so_far = (33 * so_far + word) % 2**32
    return so_far


def main():
    if shutil.which("llvm-mc"):
        print(" ".join(f"{word:08x}" for word in instructions()))
    for seed, count in [(0, 1), (7, 3), (4294967295, 2)]:
        words = data_words(seed, count)
        print(seed, count, " ".join(f"{word:08x}" for word in words), hash_of(words).to_bytes(4, "little").hex())


if __name__ == "__main__":
    main()
