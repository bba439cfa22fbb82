#!/usr/bin/python3
"""Runs a program that misses the cache at each turn over trees of 5, 13 and 17 levels, and prints for each how many
slots a second that makes, beside how many the hashes and pads of such a slot alone would allow by openssl's SHA-256 and
ChaCha20 on this machine, and their ratio; and the same beside ChaCha20 alone, over the bytes that the pads of such a
slot cover.

The slots are 64 cycles apart, the least that the settings take. Times are user times, and each speed is that between a
short run and a long one, so that neither the start nor the making of the tree counts. `rt` must be on the path: it
proves and builds the program first. The one argument is how many slots the long run has, 20000 where there is none.
"""
import os
import sys
import tempfile

from machine import AT, build, elf, immediate, jump_back, limits, register, timed

RATE = 64
# The levels of a tree, and the bytes of the memory that has such a tree.
TREES = [(5, 4_096), (13, 1_048_576), (17, 16_777_216)]


def walk(size):
    """Loads the first word of each line of the memory in turn, for ever."""
    return elf([
        AT | 8 << 7 | 0x37,  # lui x8: the first address
        size & 0xFFFF_F000 | 7 << 7 | 0x37,  # lui x7, and the next: size - 64
        immediate(0, 7, 7, -64),
        register(0, 6, 5, 8),  # add x6, x5, x8
        immediate(2, 6, 6, 0, 0x03),  # lw x6, 0(x6)
        immediate(0, 5, 5, 64),
        register(7, 5, 5, 7),  # and x5, x5, x7
        jump_back(-16),
    ])


def seconds_of(command, levels, slots):
    """The user seconds of a run of about so many slots, and how many they were."""
    slot = 2 * (levels + 1) * 40 + 16 + RATE
    report, seconds, _ = timed([*command, f"time={slots * slot}"])
    return int(report["real"]) + int(report["dummies"]), seconds


def main():
    most = int(sys.argv[1]) if len(sys.argv) > 1 else 20_000
    program = build()
    with tempfile.TemporaryDirectory() as folder:
        files = {name: os.path.join(folder, name) for name in ("walk", "key", "output")}
        with open(files["key"], "wb") as key:
            key.write(bytes(32))
        for levels, size in TREES:
            with open(files["walk"], "wb") as file:
                file.write(walk(size))
            command = [program, "run", f"elf={files['walk']}", f"key={files['key']}", f"output={files['output']}"]
            command += [f"base={AT}", f"size={size}", "sets=1", "ways=1", "budget=1000000000"]
            command += [f"rates={RATE}", "first=0", "leak=0"]
            few, short = seconds_of(command, levels, most // 10)
            many, long = seconds_of(command, levels, most)
            speed = (many - few) / (long - short)
            line = f"{levels} levels: {many} slots in {long:.2f} s, {speed:.0f} a second"
            allowed = limits(levels)
            if allowed is not None:
                for name, most_a_second in zip(("hashes and pads", "pads"), allowed):
                    line += f"; {name} alone: {most_a_second:.0f}, ratio {speed / most_a_second:.2f}"
            print(line)


if __name__ == "__main__":
    main()
