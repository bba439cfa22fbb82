#!/usr/bin/env python3
"""Assembles texts of 1, 2 and 4 MiB, and prints the seconds that each takes: they grow with the length. It runs the
program `ascend` that `rt run` leaves in crates/ascend/out; where it is missing, nothing is done.
"""
import subprocess
import sys
import tempfile
import time
from pathlib import Path

PROGRAM = Path(__file__).parent.parent / "crates" / "ascend" / "out" / "ascend"


def text(size):
    """Lines with a label, a statement that leads back to one, and a comment, up to a size in bytes."""
    lines, length, number = [], 0, 0
    while True:
        line = f"label_{number}: bne x5, x6, label_{max(0, number - 900)} # back\n"
        length += len(line)
        if length > size:
            return "".join(lines)
        lines.append(line)
        number += 1


def seconds(folder, size):
    source = folder / "text"
    source.write_text(text(size))
    begin = time.monotonic()
    subprocess.run([PROGRAM, "asm", f"text={source}", f"elf={folder / 'file'}"], check=True)
    return time.monotonic() - begin


def main():
    if not PROGRAM.exists():
        print(f"{PROGRAM} is missing", file=sys.stderr)
        return
    with tempfile.TemporaryDirectory() as folder:
        for mebibytes in (1, 2, 4):
            print(f"{mebibytes} MiB: {seconds(Path(folder), mebibytes * 2**20):.2f} s")


if __name__ == "__main__":
    main()
