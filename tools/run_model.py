"""A model of `ascend run` over an honest memory, for comparisons: the cache, the walk of the ORAM's front end with its
counters, the timetable and the learner, on the interpreter of core_rows.py. It keeps no tree and no stash, since an
honest memory answers what was stored: what it makes are the times, the leaves, the report and the trace.
"""
import hmac
import struct

from bus_traces import epoch_of, slot_cycles
from core_rows import LOADS, STORES, Machine, signed

LINE = 64
CHILDREN = 32
DEFAULTS = {"size": 1_048_576, "base": 0, "sets": 64, "ways": 8, "plb": 32, "roots": 16, "ic": 14,
            "budget": 10_000_000, "time": 268_435_456, "leak": 16, "rates": [256, 1024, 4096, 16384], "first": 3,
            "epoch": 65_536}
OUTPUT_LIMIT = 1_048_576


def layers_of(settings):
    """The first address and the number of blocks of each layer: the lines, and the position map above them."""
    layers = [(0, settings["size"] // LINE)]
    while layers[-1][1] > settings["roots"]:
        first, count = layers[-1]
        layers.append((first + count, -(-count // CHILDREN)))
    return layers


class TimeUp(Exception):
    """The time of the settings is up: `time` is the clock, or the start of the first slot that isn't done."""

    def __init__(self, time):
        super().__init__(time)
        self.time = time


class Slots:  # pylint: disable=too-many-instance-attributes
    """The slots of a run: the timetable with its choices by the learner's rule, and the leaf of each."""

    def __init__(self, settings, key):
        self.settings = settings
        self.levels = max(1, sum(layers_of(settings)[-1]).bit_length() - 2)
        self.key = hmac.digest(key, b"ascend leaf", "sha256")
        self.shown, self.chosen, self.reached = [], [], 0
        self.rate = self.next = settings["rates"][settings["first"]]
        self.last = self.real = self.dummies = 0
        self.since = self.asked = self.waste = 0

    def most_choices(self):
        """How many choices the budget allows."""
        bits = len(self.settings["rates"]).bit_length() - 1
        return self.settings["leak"] // bits if bits else 0

    def leaf(self, point):
        """The leaf of a point's bytes."""
        return int.from_bytes(hmac.digest(self.key, point, "sha256")[:4], "big") % 2**self.levels

    def take(self, point):
        """Does the next slot."""
        self.shown.append((self.next, self.leaf(point)))
        self.last = self.next + slot_cycles(self.levels)
        epoch = epoch_of(self.last, self.settings["epoch"])
        if epoch > self.reached and len(self.chosen) < self.most_choices():
            self.choose()
        self.reached = max(self.reached, epoch)
        self.next = self.last + self.rate

    def choose(self):
        """Chooses the rate that is nearest to the cycles without memory, for each access since the last choice."""
        rates, index = self.settings["rates"], len(self.settings["rates"]) - 1
        if self.asked:
            busy = self.waste + self.asked * slot_cycles(self.levels)
            raw = max(0, self.last - self.since - busy) // self.asked
            index = min(range(len(rates)), key=lambda place: (abs(rates[place] - raw), place))
        self.chosen.append(index)
        self.rate = rates[index]
        self.since, self.asked, self.waste = self.last, 0, 0

    def dummies_before(self, time):
        """Does the slots that start before a time as dummies."""
        while self.next < time:
            self.dummies += 1
            self.take(b"\1" + struct.pack(">Q", self.dummies - 1))

    def access(self, asked, address, counter):
        """Does the first slot from a time on for a block under a counter. Answers its end."""
        self.dummies_before(min(asked, self.settings["time"]))
        if self.next >= self.settings["time"]:
            raise TimeUp(self.next)
        self.real, self.asked, self.waste = self.real + 1, self.asked + 1, self.waste + self.next - asked
        self.take(b"\0" + struct.pack(">IQH", address, *counter))
        return self.last


class Walk:
    """The requests of lines as accesses to blocks: the layers of the position map, their counters, and the lookaside
    buffer."""

    def __init__(self, settings, slots):
        self.settings, self.slots, self.layers = settings, slots, layers_of(settings)
        self.roots, self.groups, self.held = {}, {}, []

    def counted(self, asked, layer, index):
        """The counter of a block, which is stepped, and the time after the group move that this may need."""
        address = self.layers[layer][0] + index
        if layer == len(self.layers) - 1:
            self.roots[address] = self.roots.get(address, 0) + 1
            return asked, (self.roots[address] - 1, 0)
        group = self.groups.setdefault((layer, index // CHILDREN), [0, [0] * CHILDREN])
        if group[1][index % CHILDREN] >= 2**self.settings["ic"] - 1:
            asked = self.moved(asked, layer, index // CHILDREN * CHILDREN, group)
            group[0], group[1] = group[0] + 1, [0] * CHILDREN
        counter = group[0], group[1][index % CHILDREN]
        group[1][index % CHILDREN] += 1
        return asked, counter

    def moved(self, asked, layer, first_child, group):
        """The accesses of a group move: all children in order, but those that the lookaside buffer holds."""
        first, count = self.layers[layer]
        for child in range(first_child, min(first_child + CHILDREN, count)):
            if first + child not in self.held:
                asked = self.slots.access(asked, first + child, (group[0], group[1][child - first_child]))
        return asked

    def request(self, asked, line):
        """Fetches or stores a line, asked for at a time. Answers the end of the last slot."""
        chain, index = [(0, line)], line
        for layer in range(1, len(self.layers)):
            index //= CHILDREN
            address = self.layers[layer][0] + index
            if address in self.held:
                self.held.remove(address)
                self.held.insert(0, address)
                break
            chain.append((layer, index))
        for layer, index in reversed(chain):
            address = self.layers[layer][0] + index
            asked, counter = self.counted(asked, layer, index)
            asked = self.slots.access(asked, address, counter)
            if layer:
                self.held.insert(0, address)
                del self.held[self.settings["plb"]:]
        return asked


class CachedMachine(Machine):
    """The core with a clock, over a cache whose lines come from the walk."""

    def __init__(self, settings, slots, *state):
        super().__init__(*state)
        self.ways, self.walk, self.clock, self.fetches = settings["ways"], Walk(settings, slots), 0, 0
        self.sets = [[] for _ in range(settings["sets"])]

    def touch(self, line, writes, whole=False):
        """Brings a line to the front of its set, and makes it dirty where it is written."""
        lines = self.sets[line % len(self.sets)]
        for place, (held, dirty) in enumerate(lines):
            if held == line:
                del lines[place]
                lines.insert(0, (line, dirty or writes))
                return
        if len(lines) == self.ways and lines[-1][1]:
            self.clock = self.walk.request(self.clock, lines[-1][0])
            lines[-1] = lines[-1][0], False
        if not whole:
            self.clock = self.walk.request(self.clock, line)
            self.fetches += 1
        lines.insert(0, (line, writes))
        del lines[self.ways:]

    def touch_bytes(self, address, count, writes):
        """Touches the lines of some bytes, where there are any inside the memory."""
        if count and self.inside(address, count):
            for line in range((address - self.base) // LINE, (address - self.base + count - 1) // LINE + 1):
                self.touch(line, writes)

    def touch_data(self, word):
        """Touches the lines that an instruction reads or writes, where it doesn't trap."""
        code, funct3, base = word & 127, word >> 12 & 7, self.x[word >> 15 & 31]
        if code == 0x03 and funct3 in LOADS.values():
            self.touch_bytes((base + signed(word >> 20, 12)) % 2**32, 1 << (funct3 & 3), False)
        elif code == 0x23 and funct3 in STORES.values():
            self.touch_bytes((base + signed(word >> 25 << 5 | word >> 7 & 31, 12)) % 2**32, 1 << funct3, True)
        elif word == 0x73 and self.x[17] == 63 and self.x[10] == 0 and self.inside(self.x[11], self.x[12]):
            self.touch_bytes(self.x[11], min(self.x[12], len(self.text) - self.position), True)
        elif word == 0x73 and self.x[17] == 64 and self.x[10] in (1, 2):
            self.touch_bytes(self.x[11], self.x[12], False)

    def step(self):
        """One instruction, on the clock."""
        self.touch_bytes(self.pc, 4, False)
        self.touch_data(int.from_bytes(self.get(self.pc, 4), "little"))
        cost, status = super().step()
        self.clock += cost
        return cost, status


def loaded(elf, base, size):
    """The memory that a program's file begins with, the lines of its segments, its entry and its first break."""
    entry, table = struct.unpack_from("<II", elf, 24)
    image, marked, heap = bytearray(size), set(), base
    for index in range(struct.unpack_from("<H", elf, 44)[0]):
        kind, offset, address, _, part, whole = struct.unpack_from("<6I", elf, table + 32 * index)
        if kind == 1 and whole:
            image[address - base:address - base + part] = elf[offset:offset + part]
            marked.update(place // LINE for place in range(address - base, address - base + part))
            heap = max(heap, address + whole)
    return image, sorted(marked), entry, min(-(-heap // 16) * 16, base + size)


def ended(machine, settings, marked):
    """Runs to the end. Answers how it ended with the status, the finished instructions, and the clock of the report."""
    finished = before = 0
    try:
        for line in marked:
            before = machine.clock
            machine.touch(line, True, True)
            machine.clock += 1
        while True:
            before = machine.clock
            if finished == settings["budget"]:
                return ("budget", 9), finished, before
            if machine.clock >= settings["time"]:
                raise TimeUp(machine.clock)
            _, status = machine.step()
            finished += 1
            if status is not None:
                return (f"exit {status}", 0), finished, machine.clock
    except TimeUp as end:
        return (f"time {end.time}", 8), finished, before


def trace_text(settings, slots, end):
    """The text of a run's trace."""
    lines = ["ascend trace 1", f"levels {slots.levels}", "rates " + " ".join(map(str, settings["rates"]))]
    lines += [f"{name} {settings[name]}" for name in ("first", "epoch", "leak")]
    lines += [f"access {start} {leaf} {2 * (slots.levels + 1)}" for start, leaf in slots.shown]
    return "\n".join([*lines, f"end {end}", ""])


def report_text(ending, finished, cycles, end, machine):
    """The ten lines of a run's report."""
    slots = machine.walk.slots
    count = len(slots.settings["rates"])
    code = sum(index * count**place for place, index in enumerate(slots.chosen))
    report = {"end": ending, "instructions": finished, "cycles": cycles, "last": end, "fetches": machine.fetches,
              "real": slots.real, "dummies": slots.dummies, "choices": len(slots.chosen), "code": code, "altered": 0}
    return "".join(f"{name} {value}\n" for name, value in report.items())


def modelled(elf, key, text, given):
    """Status, report, output and trace of a run with these settings, for programs that don't trap."""
    settings = {**DEFAULTS, **given}
    image, marked, *starts = loaded(elf, settings["base"], settings["size"])
    slots = Slots(settings, key)
    machine = CachedMachine(settings, slots, image, settings["base"], *starts, text, OUTPUT_LIMIT)
    (ending, status), finished, cycles = ended(machine, settings, marked)
    end = settings["time"] if status == 8 else min(cycles, settings["time"])
    slots.dummies_before(end)
    end = max(end, slots.last)
    return (status, report_text(ending, finished, cycles, end, machine), machine.output,
            trace_text(settings, slots, end))
