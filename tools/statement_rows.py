#!/usr/bin/env python3
"""Prints rows of words and their statements for the tests of rv32_asm, and rows of texts and their bytes. Words and
bytes are those that LLVM's assembler (Debian's package llvm) gives; where it is missing, nothing is printed.
"""
import re
import shutil
import subprocess
import sys
import tempfile
from pathlib import Path

REGISTERS = "add sub sll slt sltu xor srl sra or and mul mulh mulhsu mulhu div divu rem remu".split()
IMMEDIATES = "addi slti sltiu xori ori andi".split()
SHIFTS = "slli srli srai".split()
BRANCHES = "beq bne blt bge bltu bgeu".split()
LOADS = "lb lh lw lbu lhu".split()
STORES = "sb sh sw".split()


def statements():
    """Every statement, with the ends of each range and all registers."""
    yield from ["lui x0, 0", "lui x31, 1048575", "lui x9, 524288", "auipc x1, 1", "auipc x30, 1048574"]
    yield from ["jal x0, -1048576", "jal x31, 1048574", "jal x1, -2", "jal x2, 2048", "jal x3, 0"]
    yield from ["jalr x0, 0(x1)", "jalr x5, -2048(x31)", "jalr x31, 2047(x0)"]
    for index, name in enumerate(BRANCHES):
        yield f"{name} x{index}, x{31 - index}, -4096"
        yield f"{name} x{index + 7}, x{index + 20}, 4094"
        yield f"{name} x31, x0, {(index - 3) * 2}"
    for index, name in enumerate(LOADS + STORES):
        yield f"{name} x{index}, -2048(x{31 - index})"
        yield f"{name} x{index + 11}, 2047(x{index + 3})"
        yield f"{name} x{31 - index}, {index - 4}(x0)"
    for index, name in enumerate(IMMEDIATES):
        yield f"{name} x{index}, x{31 - index}, -2048"
        yield f"{name} x{index + 17}, x{index + 5}, 2047"
        yield f"{name} x0, x{index + 1}, {index - 3}"
    for index, name in enumerate(SHIFTS):
        yield f"{name} x{index + 1}, x{31 - index}, 0"
        yield f"{name} x{index + 20}, x{index}, 31"
        yield f"{name} x{index}, x{index + 9}, {index * 7 + 1}"
    for index, name in enumerate(REGISTERS):
        yield f"{name} x{index}, x{31 - index}, x{index + 13}"
        yield f"{name} x{31 - index}, x{index + 1}, x{(index * 5) % 32}"
    yield from ["fence", "fence.i", "ecall", "ebreak"]


def words(texts):
    """The word of each statement, by LLVM's assembler."""
    command = ["llvm-mc", "-triple=riscv32", "-mattr=+m", "-show-encoding"]
    printed = subprocess.run(command, input="\n".join(texts), capture_output=True, text=True, check=True).stdout
    encodings = re.findall(r"encoding: \[(.*?)\]", printed)
    return [int.from_bytes(bytes(int(byte, 16) for byte in found.split(",")), "little") for found in encodings]


NAMES = "zero ra sp gp tp t0 t1 t2 s0 s1 a0 a1 a2 a3 a4 a5 a6 a7 s2 s3 s4 s5 s6 s7 s8 s9 s10 s11 t3 t4 t5 t6 fp".split()
PUT = [0, 1, -1, 2047, 2048, -2048, -2049, 0x7FFF_FFFF, 0x8000_0000, -0x8000_0000, 0xFFFF_FFFF, 0x1234_5FFF]


def halves(register, value):
    """The two statements that put a number into a register, with LLVM's own words for the parts of a number."""
    return f"lui {register}, %hi({value})\naddi {register}, {register}, %lo({value})"


def programs():
    """Texts, with what LLVM reads in place of each where it reads it otherwise. The first place is 67,584, whose low
    twelve bits are 2,048."""
    yield "\n".join(f"add {name}, {name}, x0" for name in NAMES), None
    yield "nop\nret\nj -2\naddi x5, x6, 0x7fF", None
    yield " \t lw\tx7 , -4 ( x8 ) # a comment", "lw x7, -4(x8)"
    yield "a: nop\nb:nop # b\n beq x1, x2, a\n jal x1, c\n bne x3, x4, b\nc: j c\n j a\n", None
    yield "j end\r\nx1: .word x1\nnop: .word end\nend:", "j end\nx1: .word 67588\nnop: .word 67596\nend:"
    yield ".word 4294967295\n.word -2147483648\n.word 0xdeadbeef", None
    for value in PUT:
        yield f"li x5, {value}", halves("x5", value)
    yield "la x9, far\nfar: la sp, end\nend:", f"{halves('x9', 67592)}\n{halves('sp', 67600)}"
    yield ".byte 255\n.byte -128\n.byte 7\n.zero 2\n.byte 1\n.balign 8\n.byte 2\n.balign 1\n.balign 4", None
    yield '.ascii "a\\n\\t\\0\\\\\\"# : b" # "c"\r\n.ascii ""', '.ascii "a\\n\\t\\0\\\\\\"# : b"\n.ascii ""'


def far_programs():
    """Texts with jumps and branches as far as they go."""
    yield "back: .zero 4096\n beq x1, x2, back", 4096
    yield "bltu x3, x4, far\n.zero 4088\n.byte 0\n.byte 0\nfar:", 0
    yield "back: .zero 1048576\n jal x5, back", 1_048_576
    yield "jal x6, far\n.zero 1048568\n.byte 0\n.byte 0\nfar:", 0


def contents(text):
    """The bytes of a text, by LLVM's assembler."""
    with tempfile.TemporaryDirectory() as folder:
        source, made, flat = (Path(folder) / name for name in ("a.s", "a.o", "a.bin"))
        source.write_text(".data\n" + text + "\n")
        assemble = ["llvm-mc", "-triple=riscv32", "-mattr=+m", "-filetype=obj", source, "-o", made]
        subprocess.run(assemble, check=True)
        subprocess.run(["llvm-objcopy", "-O", "binary", "-j", ".data", made, flat], check=True)
        return flat.read_bytes()


def quoted(text):
    """A text as Rust writes it."""
    for shown, letter in [("\\", "\\"), ('"', '"'), ("\n", "n"), ("\t", "t"), ("\r", "r")]:
        text = text.replace(shown, "\\" + letter)
    return f'"{text}"'


def main():
    if shutil.which("llvm-mc") is None:
        print("llvm-mc is missing", file=sys.stderr)
        return
    texts = list(statements())
    for word, text in zip(words(texts), texts, strict=True):
        print(f'(0x{word >> 16:04x}_{word % 2**16:04x}, "{text}"),')
    for text, read in programs():
        found = contents(text if read is None else read)
        words_of = [f"0x{int.from_bytes(found[at:at + 2], 'little'):04x}" for at in range(0, len(found), 2)]
        pairs = zip(words_of[1::2], words_of[::2])
        shown = [f"{high}_{low[2:]}" for high, low in pairs] if len(found) % 4 == 0 else [f"0x{b:02x}" for b in found]
        print(f"({quoted(text)}, &[{', '.join(shown)}]),")
    for text, place in far_programs():
        word = int.from_bytes(contents(text)[place : place + 4], "little")
        print(f"({quoted(text)}, {84 + place}, 0x{word >> 16:04x}_{word % 2**16:04x}),")


if __name__ == "__main__":
    main()
