#!/usr/bin/python3
"""Runs a program with `ascend run` under a list of leakage budgets, rates and first rates, once for each input, and
makes a table and a picture of what a budget costs and of what it may tell; and says which inputs an observer of the bus
can't tell apart, by comparing the traces.

All goes into one folder: `table.csv` with a line for each run, `pairs.csv` with a line for each two inputs under the
same budget, `picture.png`, and the traces. The columns of the table are explained in docs/observing.md. A study that
was stopped goes on from what it has when the same command is given again, and runs again what belongs to other files.

Each run has a key of its own, made from the run's name, so that the traces of two runs have nothing in common but the
times. In use a key comes from a source of random bytes, and serves once.
"""
import argparse
import csv
import functools
import hashlib
import itertools
import os
import struct
import subprocess
import sys
import tempfile

from bus_traces import Difference, Refused, read
from core_rows import Machine
from pictures import COLOURS, NO_PICTURE, end_with, plotter

TOP = os.path.dirname(os.path.dirname(os.path.abspath(__file__)))
ASCEND = os.path.join(TOP, "crates", "ascend", "out", "ascend")
REPORT = ("instructions", "cycles", "last", "fetches", "real", "dummies", "choices", "code")
NAMES = ("program", "input", "leak", "rates", "first", "settings")
COLUMNS = (*NAMES, "end", *REPORT, "bits", "instructions_a_cycle", "flat_instructions", "flat_cycles", "sums", "trace")
PAIRS = ("leak", "rates", "first", "one", "two", "verdict", "alike_slots", "differs_at", "end_one", "end_two")
ENDED = (0, 1, 6, 7, 8, 9, 10)
MOST_COUNTED = 5_000_000
OUTPUT_LIMIT = 1_048_576


class Trouble(Exception):
    """What ends a study: the text says why."""


def numbers(text):
    """Numbers with commas between."""
    return [int(number) for number in text.split(",")]


def words_of_arguments():
    """The words of the command line."""
    parser = argparse.ArgumentParser(description=__doc__, formatter_class=argparse.RawDescriptionHelpFormatter)
    parser.add_argument("program", metavar="PROGRAM", help="the ELF file")
    parser.add_argument("inputs", nargs="+", metavar="INPUT", help="a file that the program reads")
    parser.add_argument("--leak", type=numbers, default=[0, 2, 8, 16], metavar="N,..",
                        help="budgets in bits (0,2,8,16)")
    parser.add_argument("--rates", action="append", type=numbers, metavar="N,..",
                        help="rates; more than once for several lists (256,1024,4096,16384)")
    parser.add_argument("--first", type=numbers, metavar="N,..",
                        help="indices of the first rate (the last of each list)")
    parser.add_argument("--set", action="append", default=[], metavar="NAME=VALUE",
                        help="a further word of `ascend run` for all runs, as sets=1; more than once for several")
    parser.add_argument("--into", default="study", metavar="FOLDER", help="where all goes (study)")
    parser.add_argument("--ascend", default=ASCEND, metavar="FILE",
                        help="the program ascend (the one of this repository)")
    return parser.parse_args()


def budgets(words):
    """Each budget of the study: leak, rates and first."""
    for rates in words.rates or [[256, 1024, 4096, 16384]]:
        for first in words.first or [len(rates) - 1]:
            if first >= len(rates):
                print(f"left out: first {first} with {len(rates)} rates")
                continue
            for leak in words.leak:
                yield str(leak), ",".join(map(str, rates)), str(first)


def bytes_of(path):
    """The bytes of a file."""
    with open(path, "rb") as file:
        return file.read()


@functools.cache
def sum_of(path):
    """A short sum of a file's bytes, by which a table's line knows it again."""
    return hashlib.sha256(bytes_of(path)).hexdigest()[:12]


def planned(words):
    """The runs of the study: lines of the table as far as they are known before, with the files."""
    settings = " ".join(sorted(words.set))
    if not os.path.exists(words.ascend):
        raise Trouble(f"there is no program {words.ascend}: docs/observing.md says how to build it")
    if len(set(map(os.path.basename, words.inputs))) < len(words.inputs):
        raise Trouble("two inputs have one name")
    for budget in budgets(words):
        for path in words.inputs:
            names = (os.path.basename(words.program), os.path.basename(path), *budget, settings)
            row = dict(zip(NAMES, names))
            row["sums"] = "-".join(map(sum_of, (words.ascend, words.program, path)))
            named = hashlib.sha256("\n".join((*names, sum_of(words.program), sum_of(path))).encode()).hexdigest()
            row["trace"] = os.path.join("traces", f"{row['input']}.{named[:12]}")
            yield row, path, bytes.fromhex(named)


def asked(words, command):
    """What `ascend` prints for these words, and its status."""
    try:
        done = subprocess.run([words.ascend, *command], capture_output=True, text=True, check=False)
    except OSError as error:
        raise Trouble(f"{words.ascend} can't be run: {error.strerror}") from error
    return done.stdout.splitlines(), done.returncode


def settings_of(words, names):
    """Those of the further words that have these names."""
    return [word for word in words.set if word.split("=")[0] in names]


def image_of(elf, base, size):
    """The memory that a program's file begins with, its entry and its first break."""
    entry, table = struct.unpack_from("<II", elf, 24)
    image, heap = bytearray(size), base
    for index in range(struct.unpack_from("<H", elf, 44)[0]):
        kind, offset, address, _, part, whole = struct.unpack_from("<6I", elf, table + 32 * index)
        if kind == 1 and whole:
            image[address - base:address - base + part] = elf[offset:offset + part]
            heap = max(heap, address + whole)
    return image, entry, min(-(-heap // 16) * 16, base + size)


def flat_numbers(words, path, folder):
    """The instructions of the flat run, and its cycles: the costs of its instructions, where memory costs nothing."""
    command = [f"elf={words.program}", f"input={path}", f"output={folder}/output"]
    lines, _ = asked(words, ["flat", *command, *settings_of(words, ("size", "base", "budget"))])
    if len(lines) != 2 or not lines[1].startswith("instructions "):
        raise Trouble(f"ascend flat says: {' '.join(lines)}")
    finished = int(lines[1].split()[1])
    if finished > MOST_COUNTED:
        return finished, ""
    given = dict(word.split("=") for word in settings_of(words, ("size", "base")))
    base, size = int(given.get("base", 0)), int(given.get("size", 1_048_576))
    image, entry, heap = image_of(bytes_of(words.program), base, size)
    machine = Machine(image, base, entry, heap, bytes_of(path), OUTPUT_LIMIT)
    counted, _, cost = machine.run(finished)
    if counted != finished:
        raise Trouble(f"ascend flat finishes {finished} instructions, and the interpreter here {counted}")
    return finished, cost


def run_once(words, row, path, key, folder):
    """Does one run, and fills its line of the table."""
    key_file, trace = os.path.join(folder, "key"), os.path.join(folder, "trace")
    with open(key_file, "wb") as file:
        file.write(key)
    command = [f"elf={words.program}", f"key={key_file}", f"input={path}", f"output={folder}/output", f"trace={trace}"]
    budget = [f"leak={row['leak']}", f"rates={row['rates']}", f"first={row['first']}"]
    lines, status = asked(words, ["run", *command, *budget, *words.set])
    if status not in ENDED or len(lines) != 10:
        raise Trouble(f"ascend run ends with status {status} and says: {' '.join(lines)}")
    row["end"] = lines[0].removeprefix("end ")
    row.update(line.split() for line in lines[1:9])
    seen = judged(trace)
    row["bits"] = int(row["choices"]) * seen.header.digit_bits
    row["instructions_a_cycle"] = f"{int(row['instructions']) / max(1, int(row['cycles'])):.4f}"
    if len(seen.slots) != int(row["real"]) + int(row["dummies"]) or seen.end != int(row["last"]):
        raise Trouble(f"report and trace differ: {' '.join(lines)}")
    os.replace(trace, os.path.join(words.into, row["trace"]))


def judged(path):
    """The trace of a file that a run wrote."""
    try:
        return read(path)
    except Refused as refused:
        raise Trouble(f"the trace of a run is refused: {refused.words}") from refused


def known_lines(words):
    """The lines of the table that stands there, by the names of their runs and the sums of their files."""
    try:
        with open(os.path.join(words.into, "table.csv"), encoding="utf-8", newline="") as file:
            lines = [row for row in csv.DictReader(file) if None not in row and None not in row.values()]
    except FileNotFoundError:
        return {}
    whole = [row for row in lines if tuple(row) == COLUMNS and os.path.exists(os.path.join(words.into, row["trace"]))]
    return {tuple(row[name] for name in (*NAMES, "sums")): row for row in whole}


def write_table(path, columns, rows):
    """Writes a table whole: the old one stands until the new one does."""
    with open(path + ".new", "w", encoding="utf-8", newline="") as file:
        table = csv.DictWriter(file, columns, extrasaction="ignore")
        table.writeheader()
        table.writerows(rows)
    os.replace(path + ".new", path)


def show_progress(text):
    """One line that is written over by the next, on a terminal alone."""
    if sys.stderr.isatty():
        print(f"\r\x1b[K{text}", end="", file=sys.stderr, flush=True)


def names_of(row):
    """By what a line of the table is known again."""
    return tuple(row[name] for name in (*NAMES, "sums"))


def study(words):
    """Does the runs that are missing, and writes the table after each. Answers the lines of this study."""
    runs, table, flats = list(planned(words)), known_lines(words), {}
    missing = [run for run in runs if names_of(run[0]) not in table]
    if len(missing) < len(runs):
        print(f"goes on: {len(runs) - len(missing)} of {len(runs)} runs are there")
    for number, (row, path, key) in enumerate(missing, len(runs) - len(missing) + 1):
        budget = f"leak {row['leak']} rates {row['rates']} first {row['first']}"
        show_progress(f"{number} of {len(runs)}: {row['input']} {budget}")
        with tempfile.TemporaryDirectory(dir=words.into) as folder:
            if path not in flats:
                flats[path] = flat_numbers(words, path, folder)
            row["flat_instructions"], row["flat_cycles"] = flats[path]
            run_once(words, row, path, key, folder)
        table[names_of(row)] = row
        write_table(os.path.join(words.into, "table.csv"), COLUMNS, table.values())
    show_progress("")
    return [table[names_of(row)] for row, _, _ in runs]


def groups(rows):
    """The lines of each budget together, in order."""
    return [list(group) for _, group in itertools.groupby(rows, lambda row: tuple(row[name] for name in NAMES[2:5]))]


def compared(words, rows):
    """A line for each two inputs under the same budget: whether their times can be told apart."""
    for group in groups(rows):
        traces = {row["input"]: judged(os.path.join(words.into, row["trace"])) for row in group}
        for one, two in itertools.combinations(traces, 2):
            difference = Difference(traces[one], traces[two])
            line = {name: group[0][name] for name in ("leak", "rates", "first")}
            line.update(one=one, two=two, verdict=difference.verdict, alike_slots=difference.alike,
                        differs_at=difference.time or "", end_one=difference.ends[0], end_two=difference.ends[1])
            yield line


def show(rows, pairs):
    """Prints the main columns of the table, and the pairs."""
    form = "{:<18} {:>4} {:<22} {:>5} {:<14} {:>9} {:>6} {:>6} {:>7} {:>4} {:>7} {:>10}"
    titles = {"instructions_a_cycle": "a cycle", "flat_cycles": "flat cycles"}
    columns = ("input", "leak", "rates", "first", "end", "last", "real", "dummies", "choices", "bits",
               "instructions_a_cycle", "flat_cycles")
    print(form.format(*(titles.get(column, column) for column in columns)))
    for row in rows:
        print(form.format(*(row[column] for column in columns)))
    for pair in pairs:
        since = f" from cycle {pair['differs_at']} on" if pair["verdict"] == "apart" else ""
        print(f"leak {pair['leak']} rates {pair['rates']} first {pair['first']}: {pair['one']} and {pair['two']}: "
              f"{pair['verdict']}{since}; ends {pair['end_one']} and {pair['end_two']}")


def values_of(rows, name, column):
    """The numbers of a column for one input, one for each budget."""
    return [float(row[column] or "nan") for row in rows if row["input"] == name]


def draw_bars(axes, rows, inputs, column, scale=1):
    """Draws bars for each budget, one for each input. Answers where they stand."""
    places = {}
    for index, name in enumerate(inputs):
        values = [value / scale for value in values_of(rows, name, column)]
        places[name] = [budget + (index + 0.5) * 0.8 / len(inputs) - 0.4 for budget in range(len(values))]
        axes.bar(places[name], values, 0.8 / len(inputs), color=COLOURS[index % len(COLOURS)])
    return places


def draw_slots(axes, rows, inputs):
    """Draws the real slots of each run, and above them the dummies."""
    places = draw_bars(axes, rows, inputs, "real")
    for index, name in enumerate(inputs):
        axes.bar(places[name], values_of(rows, name, "dummies"), 0.8 / len(inputs), values_of(rows, name, "real"),
                 color="white", edgecolor=COLOURS[index % len(COLOURS)], hatch="//////", linewidth=0.8)
    axes.set_ylabel("slots")
    axes.set_title("slots: real, and dummies above", fontsize=10)


def draw_marks(axes, places, values, colour="black"):
    """Draws a short line across each bar."""
    width = 0.4 / len(places)
    for name, heights in values.items():
        axes.hlines(heights, [middle - width for middle in places[name]], [middle + width for middle in places[name]],
                    color=colour)


def draw_panels(panels, rows, inputs):
    """Draws the four panels: bits, end time, instructions a cycle, slots."""
    places = draw_bars(panels[0], rows, inputs, "bits")
    draw_marks(panels[0], places, {name: values_of(rows, name, "leak") for name in inputs})
    panels[0].set_ylabel("bits")
    panels[0].set_ylim(bottom=0)
    panels[0].set_title("what the code may tell, and the budget", fontsize=10)
    draw_bars(panels[1], rows, inputs, "last", 1000)
    flat = {name: [value / 1000 for value in values_of(rows, name, "flat_cycles")] for name in inputs}
    draw_marks(panels[1], places, flat, "red")
    panels[1].set_ylabel("thousand cycles")
    panels[1].set_title("end time, and the flat run's cycles", fontsize=10)
    draw_bars(panels[2], rows, inputs, "instructions_a_cycle")
    panels[2].set_ylabel("instructions a cycle")
    panels[2].set_title("speed", fontsize=10)
    draw_slots(panels[3], rows, inputs)


def set_budgets(panels, rows):
    """Writes the budgets below the panels. Answers what the letters there stand for."""
    budgets_there = [group[0] for group in groups(rows)]
    lists = list(dict.fromkeys((row["rates"], row["first"]) for row in budgets_there))
    letters = {pair: chr(ord("A") + index) for index, pair in enumerate(lists)}
    labels = [row["leak"] + (f"\n{letters[row['rates'], row['first']]}" if len(lists) > 1 else "")
              for row in budgets_there]
    for panel in panels:
        panel.set_xticks(range(len(labels)), labels)
        panel.set_xlabel("leak: the budget in bits" + (", and rates" if len(lists) > 1 else ""))
        panel.grid(axis="y", color="0.9")
        panel.set_axisbelow(True)
    texts = [f"rates {rates}, first {first}" for rates, first in lists]
    return texts if len(lists) == 1 else [f"{letters[pair]}: {text}" for pair, text in zip(lists, texts)]


def draw(words, rows):
    """Makes the picture. Answers its path, or None where matplotlib is missing."""
    pyplot = plotter()
    if pyplot is None:
        return None
    inputs = list(dict.fromkeys(row["input"] for row in rows))
    figure, panels = pyplot.subplots(2, 2, figsize=(max(8, 2 + 0.9 * len(groups(rows))), 7))
    draw_panels(panels.flat, rows, inputs)
    texts = set_budgets(panels.flat, rows)
    patch = pyplot.Rectangle
    keys = [patch((0, 0), 1, 1, color=colour, label=name) for colour, name in zip(itertools.cycle(COLOURS), inputs)]
    keys += [patch((0, 0), 1, 1, facecolor="white", edgecolor="0.3", hatch="//////", label="dummies"),
             pyplot.Line2D([], [], color="black", label="budget"), pyplot.Line2D([], [], color="red", label="flat run")]
    figure.legend(handles=keys, loc="upper center", ncol=len(keys), fontsize=8, frameon=False)
    figure.text(0.5, 0.015, f"{rows[0]['program']} {rows[0]['settings']}\n{'; '.join(texts)}", ha="center", fontsize=8)
    figure.tight_layout(rect=(0, 0.05, 1, 0.96))
    path = os.path.join(words.into, "picture.png")
    figure.savefig(path, dpi=100)
    return path


def main():
    """Does the study, and answers the status."""
    words = words_of_arguments()
    try:
        os.makedirs(os.path.join(words.into, "traces"), exist_ok=True)
        rows = study(words)
        if not rows:
            raise Trouble("no budget is left")
        pairs = list(compared(words, rows))
        write_table(os.path.join(words.into, "pairs.csv"), PAIRS, pairs)
    except KeyboardInterrupt:
        show_progress("")
        print("stopped: the same command goes on from here")
        return 130
    except (Trouble, OSError) as trouble:
        show_progress("")
        print(trouble)
        return 1
    show(rows, pairs)
    path = draw(words, rows)
    print(NO_PICTURE if path is None else f"picture: {path}")
    return 0


if __name__ == "__main__":
    end_with(main)
