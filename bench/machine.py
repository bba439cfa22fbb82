#!/usr/bin/python3
"""Runs two programs over encrypted memory and prints how fast: a loop whose lines stay in the cache, and a walk over
memory that misses the cache on every load, at the default rates and at a rate of 64 cycles.

For each: instructions and slots a second, the most memory that the process held, and the time of `flat` on the same
file; at the end how many slots a second the hashes and pads of a slot alone would allow by openssl's SHA-256 and
ChaCha20 on this machine, and how many its pads alone. Times are user times. `rt` must be on the path: it builds the
program first.
"""
import os
import re
import struct
import subprocess
import tempfile

TOP = os.path.dirname(os.path.dirname(os.path.abspath(__file__)))
ASCEND = os.path.join(TOP, "crates", "ascend")
AT = 0x10000
LEVELS = 13  # of the default shape

# Blocks of SHA-256 in a slot whose block is found and put back: a leaf of two, and two tags of three each.
HASHED = 2 + 3 + 3
# Bytes under a pad in a bucket.
PADDED = 368


def immediate(funct3, rd, rs1, imm, opcode=0x13):
    return (imm & 0xFFF) << 20 | rs1 << 15 | funct3 << 12 | rd << 7 | opcode


def register(funct3, rd, rs1, rs2, funct7=0):
    return funct7 << 25 | rs2 << 20 | rs1 << 15 | funct3 << 12 | rd << 7 | 0x33


def jump_back(offset):
    """`jal x0`, over a negative offset."""
    bits = offset & 0x1FFFFF
    return bits >> 20 << 31 | (bits >> 1 & 0x3FF) << 21 | (bits >> 11 & 1) << 20 | (bits >> 12 & 0xFF) << 12 | 0x6F


# x6 += x5; x7 ^= x6; x5 += 1, for ever
COMPUTE = [register(0, 6, 6, 5), register(4, 7, 7, 6), immediate(0, 5, 5, 1), jump_back(-12)]
# x6 = the word at x5; x5 = (x5 + 64) in the first 512 KiB, for ever
WALK = [
    0x0008_03B7,  # lui x7, 0x80, and the next: the mask 0x7ffc0
    immediate(0, 7, 7, -64),
    immediate(2, 6, 5, 0, 0x03),
    immediate(0, 5, 5, 64),
    register(7, 5, 5, 7),
    jump_back(-12),
]


def elf(words):
    code = b"".join(struct.pack("<I", word) for word in words)
    header = b"\x7fELF\x01\x01\x01" + bytes(9)
    header += struct.pack("<HHIIIIIHHHHHH", 2, 243, 1, AT, 52, 0, 0, 52, 32, 1, 0, 0, 0)
    return header + struct.pack("<IIIIIIII", 1, 84, AT, AT, len(code), len(code), 7, 4) + code


def timed(command):
    """The lines of a report, and the user seconds and the most bytes of the process."""
    with tempfile.TemporaryFile() as printed:
        with subprocess.Popen(command, stdout=printed) as child:
            _, _, usage = os.wait4(child.pid, 0)
            child.returncode = 0
        printed.seek(0)
        lines = printed.read().decode().splitlines()
    return dict(line.split(" ", 1) for line in lines), usage.ru_utime, usage.ru_maxrss * 1024


def openssl_bytes(name, size):
    """How many bytes a second openssl hashes or enciphers, that many at a time."""
    done = subprocess.run(
        ["openssl", "speed", "-seconds", "1", "-bytes", str(size), "-evp", name], capture_output=True, check=False
    )
    found = re.findall(r"([\d.]+)k\s*$", done.stdout.decode())
    return float(found[-1]) * 1000 if found else 0.0


def limits(levels):
    """How many slots a second the hashes and pads alone would allow, of a path that is opened and sealed, and how many
    its pads alone."""
    hashing, padding = openssl_bytes("sha256", 64 * HASHED), openssl_bytes("chacha20", PADDED)
    if not hashing or not padding:
        return None
    padded = 2 * (levels + 1) * PADDED / padding
    return 1 / (64 * HASHED / hashing + padded), 1 / padded


def build():
    """Builds the program, and says where it is."""
    subprocess.run(["rt", "run"], cwd=ASCEND, check=False, stdout=subprocess.DEVNULL)
    return os.path.join(ASCEND, "out", "ascend")


def show(name, report, seconds, held):
    slots = int(report.get("real", 0)) + int(report.get("dummies", 0))
    line = f"{name}: {report['instructions']} instructions in {seconds:.2f} s"
    line += f", {int(report['instructions']) / seconds / 1e6:.2f} million a second"
    if slots:
        line += f"; {slots} slots, {slots / seconds:.0f} a second"
    print(f"{line}; {held / 1e6:.0f} MB at most")


def main():
    with tempfile.TemporaryDirectory() as folder:
        files = {name: os.path.join(folder, name) for name in ("compute", "walk", "key", "output")}
        for name, data in (("compute", elf(COMPUTE)), ("walk", elf(WALK)), ("key", bytes(32))):
            with open(files[name], "wb") as file:
                file.write(data)
        words = [f"key={files['key']}", f"output={files['output']}"]
        program = build()
        for name in ("compute", "walk"):
            elf_word = f"elf={files[name]}"
            for rates in ([], ["rates=64", "first=0", "leak=0"]):
                command = [program, "run", elf_word, *words, "budget=100000000", *rates]
                show(f"{name}, {' '.join(rates) or 'default rates'}", *timed(command))
            flat = [program, "flat", elf_word, f"output={files['output']}", "budget=100000000"]
            show(f"{name}, flat", *timed(flat))
        allowed = limits(LEVELS)
        if allowed is None:
            print("openssl: not installed")
        else:
            print(f"hashes and pads alone: {allowed[0]:.0f} slots a second, pads alone: {allowed[1]:.0f}")


if __name__ == "__main__":
    main()
