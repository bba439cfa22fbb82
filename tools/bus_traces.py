"""Reads the text of a bus trace, and refuses what `ascend check` refuses, in the same words.

The words of a refusal are the text of the exception `Refused`: `trace line n Kind` where the text isn't a trace's, and
`fails line n found m wanted k` where no choices of rates make its slots. Times are in cycles.
"""
import dataclasses
import re

MOVE_CYCLES, TURN_CYCLES = 40, 16
LATEST = 536_870_912
LONGEST = 67_108_864
NUMBER = r"(0|[1-9][0-9]{0,9})"


class Refused(Exception):
    """A trace that `check` refuses too: the words that it prints, and its status."""

    def __init__(self, words, status):
        super().__init__(words)
        self.words, self.status = words, status


@dataclasses.dataclass
class Slot:
    """An access as the bus showed it: the cycle of its start, its leaf, and how many of its moves came before the end.

    `rate` is the gap of cycles before it, the rate in force then.
    """

    start: int
    leaf: int
    moves: int
    rate: int = 0


@dataclasses.dataclass
class Choice:
    """A choice of a rate: the slot at whose end it fell, this cycle, and the rate, or None where no start shows it."""

    slot: int
    time: int
    rate: int | None = None


@dataclasses.dataclass
class Header:
    """The numbers of a trace's header."""

    levels: int
    rates: list[int]
    first: int
    epoch: int
    leak: int

    @property
    def olat(self):
        """The cycles of a slot."""
        return slot_cycles(self.levels)

    @property
    def digit_bits(self):
        """The bits of a choice, log2 of the number of rates."""
        return len(self.rates).bit_length() - 1

    @property
    def most_choices(self):
        """How many choices the budget allows."""
        return self.leak // self.digit_bits if self.digit_bits else 0


@dataclasses.dataclass
class Trace:
    """A trace. `judge` sets its code, its bits and its choices."""

    header: Header
    slots: list[Slot]
    end: int
    code: int = 0
    bits: int = 0
    choices: list[Choice] = dataclasses.field(default_factory=list)


def slot_cycles(levels):
    """The cycles of a slot in a tree of so many levels below the root."""
    return 2 * (levels + 1) * MOVE_CYCLES + TURN_CYCLES


def refuse(line, kind):
    """The refusal of a text at a line."""
    raise Refused(f"trace line {line} {kind}", 4)


def numbers_of(line, number, form):
    """The numbers of a line of this form."""
    found = re.fullmatch(form, line)
    if found is None:
        refuse(number, "Form")
    return [int(digits) for digits in re.findall("[0-9]+", line)]


def ranged(line, number, word, least, most):
    """The number of a header's line."""
    value = numbers_of(line, number, f"{word} {NUMBER}")[0]
    if not least <= value <= most:
        refuse(number, "Range")
    return value


def rates_of(line):
    """The rates of the third line: 1, 2, 4, 8 or 16 rising numbers."""
    rates = numbers_of(line, 3, f"rates( {NUMBER})+")
    rising = all(low < high for low, high in zip(rates, rates[1:]))
    if len(rates) not in (1, 2, 4, 8, 16) or not rising or rates[0] < 64 or rates[-1] > 1_048_576:
        refuse(3, "Range")
    return rates


def header_of(lines):
    """The header, from the lines of a text with their numbers."""
    number, line = next(lines)
    if line != "ascend trace 1":
        refuse(number, "Form")
    levels = ranged(next(lines)[1], 2, "levels", 1, 20)
    rates = rates_of(next(lines)[1])
    first = ranged(next(lines)[1], 4, "first", 0, len(rates) - 1)
    epoch = ranged(next(lines)[1], 5, "epoch", slot_cycles(levels) + rates[-1], 268_435_456)
    leak = ranged(next(lines)[1], 6, "leak", 0, 60)
    return Header(levels, rates, first, epoch, leak)


def lines_of(text):
    """The whole lines of a text with their numbers from 1, and then the refusal of the one that is cut."""
    parts = text.split("\n")
    yield from enumerate(parts[:-1], 1)
    refuse(len(parts), "Cut")


def slot_of(line, number, levels):
    """The access of a line."""
    start, leaf, moves = numbers_of(line, number, f"access {NUMBER} {NUMBER} {NUMBER}")
    if start > LATEST or leaf >= 2**levels or not 1 <= moves <= 2 * (levels + 1):
        refuse(number, "Range")
    return Slot(start, leaf, moves)


def trace_of(text):
    """The trace of a text."""
    lines = lines_of(text)
    header = header_of(lines)
    slots = []
    while True:
        number, line = next(lines)
        if line.startswith("end"):
            break
        slots.append(slot_of(line, number, header.levels))
    end = ranged(line, number, "end", 0, LATEST)
    if text.split("\n", number)[number]:
        refuse(number + 1, "Extra")
    return Trace(header, slots, end)


def moves_before(start, levels, end):
    """How many moves of a slot come before a time: the reads, and after a pause the writes."""
    if start + slot_cycles(levels) <= end:
        return 2 * (levels + 1)
    turns = [0] * (levels + 1) + [TURN_CYCLES] * (levels + 1)
    return sum(start + MOVE_CYCLES * move + turn < end for move, turn in enumerate(turns))


def epoch_of(time, epoch):
    """The epoch of a time: epoch i starts at `epoch * (2^i - 1)`."""
    return (time // epoch + 1).bit_length() - 1


def fails(line, found, wanted):
    """The refusal of a trace's numbers at a line."""
    raise Refused(f"fails line {line} found {found} wanted {wanted}", 12)


def add_choice(trace, index):
    """Notes the rate of the last choice, as a digit of the code."""
    choice = trace.choices[-1]
    choice.rate = trace.header.rates[index]
    trace.code += index * len(trace.header.rates) ** (len(trace.choices) - 1)


def judge(trace):
    """Goes through the slots, and sets code, bits, choices and each slot's rate. Refused where no choices make them."""
    header, rates = trace.header, trace.header.rates
    rate, end, reached, free = rates[header.first], 0, 0, False
    for place, slot in enumerate(trace.slots):
        line = 7 + place
        if free and slot.start - end in rates:
            rate = slot.start - end
            add_choice(trace, rates.index(rate))
        elif free or slot.start != end + rate:
            fails(line, slot.start, end + (rates[0] if free else rate))
        moves = moves_before(slot.start, header.levels, trace.end)
        if moves != slot.moves:
            fails(line, slot.moves, moves)
        slot.rate = rate
        end = slot.start + header.olat
        free = epoch_of(end, header.epoch) > reached and len(trace.choices) < header.most_choices
        reached = max(reached, epoch_of(end, header.epoch))
        if free:
            trace.choices.append(Choice(place, end))
    judge_end(trace, end, rate, free)


def judge_end(trace, last, rate, free):
    """Compares the end with the next start, and counts the bits of the choices that fell by it."""
    line = 7 + len(trace.slots)
    if free:
        rates = trace.header.rates
        fitting = [index for index, choice in enumerate(rates) if last + choice >= trace.end]
        if not fitting:
            fails(line, trace.end, last + rates[-1])
        add_choice(trace, fitting[0])
        if len(fitting) > 1:
            trace.choices[-1].rate = None
        if last > trace.end:
            trace.choices.pop()
    elif last + rate < trace.end:
        fails(line, trace.end, last + rate)
    trace.bits = trace.header.digit_bits * len(trace.choices)


def read(path):
    """The trace of a file, judged. Raises OSError, or Refused."""
    with open(path, "rb") as file:
        data = file.read(LONGEST + 1)
    if len(data) > LONGEST:
        raise Refused("long trace", 13)
    trace = trace_of(data.decode("latin-1"))
    judge(trace)
    return trace


class Difference:
    """Where two traces first differ, for an observer who looks at times, and then at leaves.

    `alike` is the number of slots that have the same start, before the earlier end. `slot` is the place of the first
    one that differs, or None; `leaf` the place of the first slot, among those that are alike, whose leaves differ, or
    None.
    """

    def __init__(self, one, two):
        self.header = one.header == two.header
        self.end = min(one.end, two.end)
        self.ends = (one.end, two.end)
        shown = [[slot for slot in trace.slots if slot.start < self.end] for trace in (one, two)]
        pairs = list(zip(*shown))
        unlike = [place for place, pair in enumerate(pairs) if pair[0].start != pair[1].start]
        if not unlike and len(shown[0]) != len(shown[1]):
            unlike = [len(pairs)]
        self.slot = unlike[0] if unlike else None
        self.alike = unlike[0] if unlike else len(pairs)
        self.time = None
        if unlike:
            self.time = min(slots[self.slot].start for slots in shown if self.slot < len(slots))
        leaves = [place for place, pair in enumerate(pairs[:self.alike]) if pair[0].leaf != pair[1].leaf]
        self.leaf = leaves[0] if leaves else None

    @property
    def verdict(self):
        """One or a few words: alike, alike up to the end, or apart."""
        if self.slot is not None:
            return "apart"
        return "alike" if self.ends[0] == self.ends[1] else "alike up to the end"

    def words(self):
        """What differs in the times, as a text."""
        if self.slot is not None:
            return f"times differ first at slot {self.slot + 1}, cycle {self.time} (line {self.slot + 7})"
        if self.ends[0] != self.ends[1]:
            return f"times alike in {self.alike} slots, up to the ends: {self.ends[0]} and {self.ends[1]}"
        return f"times alike: {self.alike} slots, end {self.end}"

    def leaf_words(self):
        """What differs in the leaves, as a text."""
        if self.leaf is None:
            return f"leaves alike in these {self.alike} slots"
        return f"leaves differ first at slot {self.leaf + 1} (line {self.leaf + 7})"
