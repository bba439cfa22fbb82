#!/usr/bin/env python3
"""Runs the longest program that `gen` makes, of 65,536 words of data, with the default settings: it fits their time,
and the four bytes that it writes are the hash of its words, which this script computes by itself.

The seed is 7, or the one argument. `rt` must be on the path: it proves and builds the program first. The run takes some
minutes, so no test of the crates does it.
"""
import os
import subprocess
import sys
import tempfile

from generated_words import data_words, hash_of

TOP = os.path.dirname(os.path.dirname(os.path.abspath(__file__)))
ASCEND = os.path.join(TOP, "crates", "ascend")
WORDS = 65_536


def main():
    seed = int(sys.argv[1]) if len(sys.argv) > 1 else 7
    wanted = hash_of(data_words(seed, WORDS)).to_bytes(4, "little")
    instructions = 8 * WORDS + 21
    subprocess.run(["rt", "run"], cwd=ASCEND, check=False, stdout=subprocess.DEVNULL)
    program = os.path.join(ASCEND, "out", "ascend")
    with tempfile.TemporaryDirectory() as folder:
        key, output = os.path.join(folder, "key"), os.path.join(folder, "output")
        with open(key, "wb") as file:
            file.write(bytes(range(32)))
        words = ["gen", f"seed={seed}", f"words={WORDS}", f"key={key}", f"output={output}"]
        done = subprocess.run([program, *words], capture_output=True, text=True, check=False)
        with open(output, "rb") as file:
            found = file.read()
    lines = done.stdout.splitlines()
    print("\n".join(lines))
    print(f"output {found.hex()}, wanted {wanted.hex()}")
    good = done.returncode == 0 and found == wanted and lines[:2] == ["end exit 0", f"instructions {instructions}"]
    print("as it should be" if good else f"status {done.returncode}: not as it should be")
    return 0 if good else 1


if __name__ == "__main__":
    sys.exit(main())
