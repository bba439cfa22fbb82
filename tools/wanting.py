#!/usr/bin/env python3
"""Runs the program with each of its requests for memory refused in turn, and says whether each run ends with status 11
and prints nothing.

It tries three runs, whose words are in `RUNS`: a load whose line is fetched over encrypted memory, in four accesses; a
loop whose time is up after eight dummies; and a made program of one word of data. For each, `rt try --fail-alloc N` in
crates/ascend refuses the request numbered N, for N = 1, 2 and so on, until a run ends as the one without a refusal
does, with no request left to refuse. `rt` must be on the path; it proves nothing here. A run takes as long as `rt try`
needs to build, so the whole takes a while, and no test of the crates does it. `--most N` stops after so many numbers of
each run.
"""
import argparse
import os
import struct
import subprocess
import sys
import tempfile

TOP = os.path.dirname(os.path.dirname(os.path.abspath(__file__)))
ASCEND = os.path.join(TOP, "crates", "ascend")
SMALL = ["size=4096", "sets=1", "ways=1", "first=0"]

# Names, instructions at address 0 (none: no program file), words, and the status without a refusal.
RUNS = [
    ("a load", [0x0400_2283, 0x05D0_0893, 0x0000_0073], ["run", *SMALL], 0),
    ("dummies", [0x0000_006F], ["run", *SMALL, "rates=256", "leak=0", "time=6000"], 8),
    ("a made program", [], ["gen", "seed=0", "words=1"], 0),
]
NO_MEMORY = 11


def elf(words):
    """A file of one segment at address 0."""
    code = b"".join(struct.pack("<I", word) for word in words)
    header = b"\x7fELF\x01\x01\x01" + bytes(9)
    header += struct.pack("<HHIIIIIHHHHHH", 2, 243, 1, 0, 52, 0, 0, 52, 32, 1, 0, 0, 0)
    return header + struct.pack("<IIIIIIII", 1, 84, 0, 0, len(code), len(code), 7, 4) + code


def ended(words, number=None):
    """The status of the program and what it printed, with one request refused."""
    refused = [] if number is None else ["--fail-alloc", str(number)]
    done = subprocess.run(
        ["rt", "try", *refused, "--", *words], cwd=ASCEND, capture_output=True, text=True, check=False
    )
    return done.returncode, done.stdout


def tried(name, words, wanted, most):
    """Tries the numbers of one run from 1 on, and says whether each ended as it should."""
    plain = ended(words)
    if plain[0] != wanted:
        print(f"{name}: status {plain[0]} without a refusal, wanted {wanted}")
        return False
    for number in range(1, most + 1):
        status, printed = ended(words, number)
        if (status, printed) == plain:
            print(f"{name}: {number - 1} requests, each refused in turn: status {NO_MEMORY}, and nothing printed")
            return True
        if status != NO_MEMORY or printed:
            print(f"{name}: with request {number} refused: status {status}, printed {printed!r}")
            return False
    print(f"{name}: the first {most} requests, each refused in turn: status {NO_MEMORY}, and nothing printed")
    return True


def main():
    parser = argparse.ArgumentParser(description=__doc__, formatter_class=argparse.RawDescriptionHelpFormatter)
    parser.add_argument("--most", type=int, default=10_000, metavar="N", help="the most numbers of each run")
    most = parser.parse_args().most
    good = True
    with tempfile.TemporaryDirectory() as folder:
        files = {name: os.path.join(folder, name) for name in ("program", "key", "output")}
        with open(files["key"], "wb") as key:
            key.write(bytes([7] * 32))
        for name, program, words, wanted in RUNS:
            given = [*words, f"key={files['key']}", f"output={files['output']}"]
            if program:
                with open(files["program"], "wb") as file:
                    file.write(elf(program))
                given.append(f"elf={files['program']}")
            good = tried(name, given, wanted, most) and good
    return 0 if good else 1


if __name__ == "__main__":
    sys.exit(main())
