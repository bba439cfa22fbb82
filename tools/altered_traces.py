#!/usr/bin/python3
"""Alters traces in many ways, and compares what `ascend check` says of each with what bus_traces.py says: words and
status. It prints what differs, and how many were compared; the status is 1 where anything differs.

The traces are files that the word trace= of a run named. The alterations are the same each time. With --prefixes the
trace's beginnings are compared in their place, of each length from none of its bytes to all of them.
"""
import argparse
import os
import random
import subprocess
import sys
import tempfile

from bus_traces import Refused, read
from study import ASCEND

CHANGES = [("trace 1", "trace 2"), ("levels ", "levels 2"), ("levels ", "levels 0"), ("rates ", "rates  "),
           ("rates ", "rates 63 "), ("rates ", "rates 64 "), ("rates ", "rates 12345678901 "),
           ("first ", "first 1"), ("epoch ", "epoch 9"), ("leak ", "leak 6"), ("leak ", "leak\t"),
           ("access ", "access 0"), ("access", "acess"), (" 28\n", " 0\n"), (" 28\n", " 29\n"), (" 28\n", " 27\n"),
           ("end ", "end 1"), ("end ", "end  "), ("end ", "ends "), ("\n", "\r\n"),
           ("end ", "access 1 1 1\nend ")]
RANDOM_CHANGES = 40


def altered(text):
    """A trace's text as it is, and altered: words changed, lines cut, added and left out, and single bytes changed."""
    yield text
    for old, new in CHANGES:
        yield text.replace(old, new, 1)
    yield from (text[:-1], text + "\n", text + "end 5\n", "", text[:-2].rpartition("\n")[0] + "\n")
    chance = random.Random(1)
    for _ in range(RANDOM_CHANGES):
        lines = text.split("\n")
        place = chance.randrange(len(lines))
        if chance.random() < 0.3:
            del lines[place]
        elif lines[place]:
            at_byte = chance.randrange(len(lines[place]))
            lines[place] = lines[place][:at_byte] + chance.choice("0123456789 ae") + lines[place][at_byte + 1:]
        yield "\n".join(lines)


def beginnings(text):
    """The beginnings of a trace's text, of each length."""
    return (text[:length] for length in range(len(text) + 1))


def said_by_check(ascend, path):
    """What `ascend check` prints, and its status."""
    done = subprocess.run([ascend, "check", f"trace={path}"], capture_output=True, text=True, check=False)
    return done.stdout.rstrip("\n"), done.returncode


def said_here(path):
    """What bus_traces.py says, and the status that belongs to it."""
    try:
        trace = read(path)
    except Refused as refused:
        return refused.words, refused.status
    return f"holds code {trace.code} bits {trace.bits}", 0


def main():
    """Compares, and answers the status."""
    parser = argparse.ArgumentParser(description=__doc__, formatter_class=argparse.RawDescriptionHelpFormatter)
    parser.add_argument("traces", nargs="+", metavar="TRACE")
    parser.add_argument("--prefixes", action="store_true", help="compare the beginnings of each length")
    parser.add_argument("--ascend", default=ASCEND, metavar="FILE", help="the program (the one of this repository)")
    words = parser.parse_args()
    compared = differing = 0
    with tempfile.TemporaryDirectory() as folder:
        path = os.path.join(folder, "trace")
        for name in words.traces:
            with open(name, encoding="latin-1", newline="") as file:
                text = file.read()
            for number, changed in enumerate(beginnings(text) if words.prefixes else altered(text)):
                with open(path, "w", encoding="latin-1", newline="") as file:
                    file.write(changed)
                check, here = said_by_check(words.ascend, path), said_here(path)
                compared += 1
                if check != here:
                    differing += 1
                    print(f"{name}, alteration {number}: check says {check}, bus_traces.py {here}")
    print(f"{compared} compared, {differing} differ")
    return 1 if differing else 0


if __name__ == "__main__":
    sys.exit(main())
