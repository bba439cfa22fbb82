#!/usr/bin/env python3
"""Runs a program of some ten million instructions with `ascend run` and `ascend flat`, and prints how many instructions
a second each makes, beside qemu-riscv32 on the same file where Debian's qemu-user is installed.

`rt` must be on the path: it builds the program first. Each command is run several times, and the least time counts; the
time of a program that ends at once is taken off.
"""
import os
import shutil
import struct
import subprocess
import tempfile
import time

TOP = os.path.dirname(os.path.dirname(os.path.abspath(__file__)))
ASCEND = os.path.join(TOP, "crates", "ascend")
AT = 0x10000
ROUNDS = 1_249_990
TIMES = 5


def op(funct7, funct3, rd, rs1, rs2):
    return funct7 << 25 | rs2 << 20 | rs1 << 15 | funct3 << 12 | rd << 7 | 0x33


def immediate(opcode, funct3, rd, rs1, imm):
    return (imm & 0xFFF) << 20 | rs1 << 15 | funct3 << 12 | rd << 7 | opcode


def store(rs1, rs2, imm):
    return (imm >> 5 & 0x7F) << 25 | rs2 << 20 | rs1 << 15 | 2 << 12 | (imm & 0x1F) << 7 | 0x23


def branch_not_equal(rs1, rs2, offset):
    bits = offset & 0x1FFF
    return (
        bits >> 12 << 31 | (bits >> 5 & 0x3F) << 25 | rs2 << 20 | rs1 << 15 | 1 << 12
        | (bits >> 1 & 0xF) << 8 | (bits >> 11 & 1) << 7 | 0x63
    )


def load_upper(rd, value):
    """The two instructions that set a register to a value."""
    low = value & 0xFFF
    low -= low >> 11 << 12
    return [(value - low) & 0xFFFFF000 | rd << 7 | 0x37, immediate(0x13, 0, rd, rd, low)]


EXIT = [immediate(0x13, 0, 10, 0, 0), immediate(0x13, 0, 17, 0, 93), 0x73]

# Eight instructions a round: a load, a sum, a product, an exclusive or, a store, a comparison, a count and a branch.
LOOP = load_upper(5, ROUNDS) + load_upper(7, AT + 4096) + [
    immediate(0x03, 2, 6, 7, 0),
    op(0, 0, 6, 6, 5),
    op(1, 0, 8, 6, 5),
    op(0, 4, 9, 9, 8),
    store(7, 6, 0),
    op(0, 3, 10, 8, 9),
    immediate(0x13, 0, 5, 5, -1),
    branch_not_equal(5, 0, -28),
] + EXIT
INSTRUCTIONS = 4 + 8 * ROUNDS + 3


def elf(words):
    code = b"".join(struct.pack("<I", word) for word in words)
    header = b"\x7fELF\x01\x01\x01" + bytes(9)
    header += struct.pack("<HHIIIIIHHHHHH", 2, 243, 1, AT, 52, 0, 0, 52, 32, 1, 0, 0, 0)
    segment = struct.pack("<IIIIIIII", 1, 4096, AT, AT, len(code), 8192, 7, 4096)
    return (header + segment).ljust(4096, b"\0") + code


def least_time(command, folder, wanted):
    times = []
    for _ in range(TIMES):
        start = time.perf_counter()
        done = subprocess.run(command, cwd=folder, stdout=subprocess.PIPE, check=False)
        times.append(time.perf_counter() - start)
        assert done.returncode == 0 and wanted in done.stdout, (done.returncode, done.stdout)
    return min(times)


def show(name, command, folder, loop, empty, report):
    whole = least_time(command(loop), folder, report)
    start = least_time(command(empty), folder, b"")
    took = whole - start
    print(f"{name}: {INSTRUCTIONS} instructions in {took:.3f} s, {INSTRUCTIONS / took / 1e6:.1f} million a second")


def main():
    with tempfile.TemporaryDirectory() as folder:
        loop, empty, key = (os.path.join(folder, name) for name in ("loop", "empty", "key"))
        for path, data in ((loop, elf(LOOP)), (empty, elf(EXIT)), (key, bytes(32))):
            with open(path, "wb") as file:
                file.write(data)
            os.chmod(path, 0o755)
        run = lambda path: ["run", f"elf={path}", f"key={key}", f"output={folder}/output"]
        flat = lambda path: ["flat", f"elf={path}", f"output={folder}/output"]
        subprocess.run(["rt", "run", "--", *run(empty)], cwd=ASCEND, check=True, stdout=subprocess.DEVNULL)
        program = os.path.join(ASCEND, "out", "ascend")
        report = f"end exit 0\ninstructions {INSTRUCTIONS}\n".encode()
        show("ascend run", lambda path: [program, *run(path)], folder, loop, empty, report)
        show("ascend flat", lambda path: [program, *flat(path)], folder, loop, empty, report)
        if shutil.which("qemu-riscv32"):
            show("qemu-riscv32", lambda path: ["qemu-riscv32", path], folder, loop, empty, b"")
        else:
            print("qemu-riscv32: not installed (Debian's qemu-user)")


main()
