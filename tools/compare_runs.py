#!/usr/bin/python3
"""Runs the programs of examples/leaks under random settings and keys with `ascend run` and with run_model.py, and
compares status, report, output and trace, byte by byte. It prints what differs, and how the runs ended; the status is 1
where anything differs. The settings are the same each time for the same seed.
"""
import argparse
import collections
import os
import random
import subprocess
import sys
import tempfile

from run_model import modelled
from study import ASCEND, TOP, bytes_of

LEAKS = os.path.join(TOP, "examples", "leaks")
PROGRAMS = (("compare", "compare.far"), ("compare", "compare.near"), ("steady", "compare.far"), ("sbox", "sbox.one"),
            ("sbox", "sbox.four"), ("power", "power.few"), ("power", "power.many"), ("tree", "tree.root"),
            ("tree", "tree.leaf"))


def settings_by(chance):
    """Random settings that are in their ranges."""
    count = chance.choice([1, 2, 4, 8, 16])
    given = {"sets": 2**chance.randrange(5), "ways": chance.choice([1, 2, 3, 8]), "plb": chance.choice([1, 2, 5, 32]),
             "roots": chance.choice([1, 4, 16, 600]), "ic": chance.choice([3, 4, 6, 14]),
             "leak": chance.choice([0, 1, 5, 16, 60]), "rates": sorted(chance.sample(range(64, 3000), count)),
             "first": chance.randrange(count), "epoch": chance.choice([8000, 20000, 65536]),
             "size": chance.choice([131072, 262144, 1048576])}
    if chance.random() < 0.3:
        given["time"] = chance.choice([1, 500, 5000, 50000, 100001, 300000])
    if chance.random() < 0.3:
        given["budget"] = chance.choice([0, 1, 100, 5000, 20000])
    return given


def made_by(ascend, files, key, given, folder):
    """Status, report, output and trace as `ascend run` makes them of a program and an input."""
    paths = {name: os.path.join(folder, name) for name in ("key", "output", "trace")}
    with open(paths["key"], "wb") as file:
        file.write(key)
    words = [f"{name}={path}" for name, path in (*zip(("elf", "input"), files), *paths.items())]
    for name, value in given.items():
        words.append(f"{name}={','.join(map(str, value)) if name == 'rates' else value}")
    done = subprocess.run([ascend, "run", *words], capture_output=True, text=True, check=False)
    made = [bytes_of(paths[name]) if os.path.exists(paths[name]) else b"" for name in ("output", "trace")]
    return done.returncode, done.stdout, made[0], made[1].decode("latin-1")


def main():
    """Compares, and answers the status."""
    parser = argparse.ArgumentParser(description=__doc__, formatter_class=argparse.RawDescriptionHelpFormatter)
    parser.add_argument("--runs", type=int, default=100, metavar="N", help="how many runs (100)")
    parser.add_argument("--seed", type=int, default=1, metavar="N", help="for the random numbers (1)")
    parser.add_argument("--ascend", default=ASCEND, metavar="FILE", help="the program (the one of this repository)")
    words = parser.parse_args()
    chance, endings, differing = random.Random(words.seed), collections.Counter(), 0
    for _ in range(words.runs):
        name, text = chance.choice(PROGRAMS)
        given, key = settings_by(chance), chance.randbytes(32)
        files = [os.path.join(LEAKS, name + ".elf"), os.path.join(LEAKS, text + ".in")]
        with tempfile.TemporaryDirectory() as folder:
            made = made_by(words.ascend, files, key, given, folder)
        wanted = modelled(bytes_of(files[0]), key, bytes_of(files[1]), given)
        endings[made[1].split(" ")[1].split("\n")[0] if made[1] else "nothing"] += 1
        if made != wanted:
            differing += 1
            print(f"{name} {given}: ascend {made[:2]}, the model {wanted[:2]}")
    print(f"{words.runs} compared, {differing} differ; ended by {dict(endings)}")
    return 1 if differing else 0


if __name__ == "__main__":
    sys.exit(main())
