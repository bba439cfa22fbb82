#!/usr/bin/python3
"""Draws what the bus showed in one trace of `ascend run` or in several: the slots on a time line with the rate in
force, the choices of a rate, and the slots' leaves; and says where each further trace first differs from the first one.

It reads trace files alone, and refuses those that `ascend check` refuses, in the same words and with the same status.
With `--picture FILE.png` or `FILE.svg` it makes the picture by matplotlib (Debian's package python3-matplotlib);
without one, or where matplotlib is missing, it prints the slots as a table.
"""
import argparse
import itertools
import os
import sys

from bus_traces import Difference, Refused, read
from pictures import COLOURS, NO_PICTURE, end_with, plotter

MARKERS = "ox^sdv"


def words_of_arguments():
    """The words of the command line."""
    parser = argparse.ArgumentParser(description=__doc__, formatter_class=argparse.RawDescriptionHelpFormatter)
    parser.add_argument("traces", nargs="+", metavar="TRACE", help="a file that a run's word trace= named")
    parser.add_argument("--picture", metavar="FILE", help="the picture's file, which ends in .png or .svg")
    parser.add_argument("--from", dest="since", type=int, default=0, metavar="CYCLE", help="shows this cycle and later")
    parser.add_argument("--to", dest="until", type=int, metavar="CYCLE", help="shows cycles before this one")
    words = parser.parse_args()
    if words.picture and not words.picture.endswith((".png", ".svg")):
        parser.error("the picture's name ends in neither .png nor .svg")
    return words


def names_of(paths):
    """The files' own names, or their paths where two have one name."""
    names = [os.path.basename(path) for path in paths]
    return names if len(set(names)) == len(names) else paths


def summary(trace):
    """What a trace shows, in a few words."""
    choices = len(trace.choices)
    return (f"{len(trace.slots)} slots, end {trace.end}, {choices} {'choice' if choices == 1 else 'choices'}, "
            f"code {trace.code}, {trace.bits} of {trace.header.leak} bits")


def show_differences(names, traces):
    """Prints where each trace but the first differs from the first one."""
    for name, trace in list(zip(names, traces))[1:]:
        difference = Difference(traces[0], trace)
        print(f"{names[0]} and {name}: {difference.words()}; {difference.leaf_words()}")
        if not difference.header:
            print(f"{names[0]} and {name}: their settings differ too (lines 2 to 6)")


def show_table(name, trace, since, until):
    """Prints the slots of a trace, the choices among them."""
    chosen = {choice.slot: choice for choice in trace.choices}
    print(f"{name}:")
    print(f"{'slot':>6} {'start':>10} {'end':>10} {'rate':>8} {'leaf':>8} {'moves':>5}")
    for place, slot in enumerate(trace.slots):
        if since <= slot.start < until:
            end = slot.start + trace.header.olat
            print(f"{place + 1:>6} {slot.start:>10} {end:>10} {slot.rate:>8} {slot.leaf:>8} {slot.moves:>5}")
            if place in chosen:
                rate = chosen[place].rate
                print(f"{'':>6} {end:>10} choice of {'a rate that no start shows' if rate is None else f'rate {rate}'}")
    if trace.end < until:
        print(f"{'':>6} {trace.end:>10} end")


def in_thousands(cycles):
    """A time as the axes have it."""
    return cycles / 1000


def draw_slots(axes, name, trace, colour):
    """Draws the slots of a trace at the height of the rate in force, and the choices."""
    starts = [in_thousands(slot.start) for slot in trace.slots]
    rates = [slot.rate for slot in trace.slots]
    waits = [in_thousands(slot.start - slot.rate) for slot in trace.slots]
    axes.hlines(rates, waits, starts, color=colour, linewidth=1)
    ends = [in_thousands(min(slot.start + trace.header.olat, trace.end)) for slot in trace.slots]
    axes.hlines(rates, starts, ends, color=colour, linewidth=9)
    known = trace.header.rates
    axes.set_yscale("log", base=2)
    axes.set_yticks(known, [str(rate) for rate in known])
    axes.minorticks_off()
    axes.set_ylim(known[0] / 2, known[-1] * 5)
    for choice in trace.choices:
        axes.axvline(in_thousands(choice.time), color="black", linestyle=":", linewidth=1)
        label = "?" if choice.rate is None else str(choice.rate)
        axes.annotate(label, (in_thousands(choice.time), known[-1] * 2.4), xytext=(3, 0), fontsize=8,
                      textcoords="offset points", zorder=5, bbox={"facecolor": "white", "edgecolor": "none", "pad": 1})
    axes.axvline(in_thousands(trace.end), color="black", linewidth=1.5)
    axes.set_ylabel("rate (cycles)")
    axes.set_title(f"{name}: {summary(trace)}", fontsize=10, loc="left")
    axes.grid(axis="y", color="0.9")
    axes.set_axisbelow(True)


def draw_leaves(axes, names, traces):
    """Draws the leaf of each slot."""
    for index, (name, trace) in enumerate(zip(names, traces)):
        starts = [in_thousands(slot.start) for slot in trace.slots]
        axes.scatter(starts, [slot.leaf for slot in trace.slots], s=9, marker=MARKERS[index % len(MARKERS)],
                     color=COLOURS[index % len(COLOURS)], label=name, linewidths=0.8)
    top = max(2**trace.header.levels for trace in traces)
    axes.set_ylim(0, top)
    axes.set_ylabel("leaf of the slot")
    axes.set_xlabel("time (thousand cycles)")
    axes.set_title(f"leaves, 0 to {top - 1}", fontsize=10, loc="left")
    if len(traces) > 1:
        axes.legend(loc="lower right", bbox_to_anchor=(1, 1), ncol=len(traces), fontsize=8, frameon=False,
                    borderaxespad=0.2)


def add_legend(pyplot, figure, chooses, differs):
    """The key of the picture's lines, above all."""
    line = pyplot.Line2D
    keys = [line([], [], color="0.4", linewidth=6, solid_capstyle="butt", label="slot"),
            line([], [], color="0.4", linewidth=1, label="gap before it"),
            line([], [], color="black", linewidth=1.5, label="end")]
    if chooses:
        keys.append(line([], [], color="black", linestyle=":", label="choice, with its rate"))
    if differs:
        keys.append(line([], [], color="red", linestyle="--", label="times first differ"))
    figure.legend(handles=keys, loc="upper center", ncol=len(keys), fontsize=8, frameon=False, handlelength=1.6)


def draw(pyplot, path, names, traces, window):
    """Makes the picture."""
    heights = [1.0] * len(traces) + [1.3]
    figure, rows = pyplot.subplots(len(heights), 1, sharex=True, figsize=(8, 0.9 + 1.75 * sum(heights)),
                                   gridspec_kw={"height_ratios": heights})
    for row, name, trace, colour in zip(rows, names, traces, itertools.cycle(COLOURS)):
        draw_slots(row, name, trace, colour)
    draw_leaves(rows[-1], names, traces)
    differing = [Difference(traces[0], trace).time for trace in traces[1:]]
    times = [time for time in differing if time is not None]
    for row, time in itertools.product(rows, times):
        row.axvline(in_thousands(time), color="red", linestyle="--", linewidth=1.2)
    rows[0].set_xlim(in_thousands(window[0]), in_thousands(window[1]))
    add_legend(pyplot, figure, any(trace.choices for trace in traces), times)
    figure.tight_layout(rect=(0, 0, 1, 0.96))
    figure.savefig(path, dpi=100, metadata={"Date": None} if path.endswith(".svg") else None)


def read_all(paths):
    """The traces of the files, or None and the status where one is refused."""
    traces = []
    for path in paths:
        try:
            traces.append(read(path))
        except Refused as refused:
            print(refused.words)
            print(f"refused: {path}", file=sys.stderr)
            return None, refused.status
        except OSError as error:
            print(f"{path} can't be read: {error.strerror}", file=sys.stderr)
            return None, 5
    return traces, 0


def main():
    """Reads, says what differs, and draws or prints. Answers the status."""
    words = words_of_arguments()
    traces, status = read_all(words.traces)
    if traces is None:
        return status
    names = names_of(words.traces)
    latest = max(trace.end for trace in traces) + 1
    until = latest if words.until is None else words.until
    for name, trace in zip(names, traces):
        print(f"{name}: {summary(trace)}")
    show_differences(names, traces)
    if words.picture:
        last = latest + latest // 50 if words.until is None else until
        pyplot = plotter()
        if pyplot is not None:
            draw(pyplot, words.picture, names, traces, (words.since, last))
            print(f"picture: {words.picture}")
            return 0
        print(NO_PICTURE)
    for name, trace in zip(names, traces):
        show_table(name, trace, words.since, until)
    return 0


if __name__ == "__main__":
    end_with(main)
