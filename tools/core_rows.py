#!/usr/bin/env python3
"""Prints the rows of the tests of rv32_core: words by the formats of the RISC-V unprivileged manual (RV32I 2.1, M 2.0,
Zifencei), and what they do, computed by an interpreter over Python's whole numbers. The host calls are those of
the crate's specs/Machine.antt, and the costs those of the crate cycle_table. With `--assembler AS` the words are
compared with those of a GNU assembler for riscv.
"""
import subprocess
import sys
import tempfile

WORD, BASE, SIZE = 2**32, 4096, 4096
OPS = {"add": (0, 0), "sub": (0, 32), "sll": (1, 0), "slt": (2, 0), "sltu": (3, 0), "xor": (4, 0), "srl": (5, 0),
       "sra": (5, 32), "or": (6, 0), "and": (7, 0), "mul": (0, 1), "mulh": (1, 1), "mulhsu": (2, 1), "mulhu": (3, 1),
       "div": (4, 1), "divu": (5, 1), "rem": (6, 1), "remu": (7, 1)}
IMMEDIATES = {"addi": 0, "slti": 2, "sltiu": 3, "xori": 4, "ori": 6, "andi": 7}
SHIFTS = {"slli": (1, 0), "srli": (5, 0), "srai": (5, 32)}
LOADS = {"lb": 0, "lh": 1, "lw": 2, "lbu": 4, "lhu": 5}
STORES = {"sb": 0, "sh": 1, "sw": 2}
BRANCHES = {"beq": 0, "bne": 1, "blt": 4, "bge": 5, "bltu": 6, "bgeu": 7}


def signed(value, bits=32):
    return value - 2**bits if value >> (bits - 1) & 1 else value


def encode(text):
    name, _, rest = text.partition(" ")
    part = [p.strip() for p in rest.replace("(", ",").replace(")", "").split(",")] if rest else []
    reg = lambda i: int(part[i][1:])
    num = lambda i: int(part[i], 0)
    if name == ".word":
        return num(0)
    if name in OPS:
        f3, f7 = OPS[name]
        return f7 << 25 | reg(2) << 20 | reg(1) << 15 | f3 << 12 | reg(0) << 7 | 0x33
    if name in IMMEDIATES:
        return (num(2) & 0xFFF) << 20 | reg(1) << 15 | IMMEDIATES[name] << 12 | reg(0) << 7 | 0x13
    if name in SHIFTS:
        f3, f7 = SHIFTS[name]
        return f7 << 25 | num(2) << 20 | reg(1) << 15 | f3 << 12 | reg(0) << 7 | 0x13
    if name in LOADS:
        return (num(1) & 0xFFF) << 20 | reg(2) << 15 | LOADS[name] << 12 | reg(0) << 7 | 0x03
    if name in STORES:
        imm = num(1) & 0xFFF
        return imm >> 5 << 25 | reg(0) << 20 | reg(2) << 15 | STORES[name] << 12 | (imm & 31) << 7 | 0x23
    if name in BRANCHES:
        imm = num(2) & 0x1FFF
        bits = (imm >> 12 & 1) << 31 | (imm >> 5 & 63) << 25 | (imm >> 1 & 15) << 8 | (imm >> 11 & 1) << 7
        return bits | reg(1) << 20 | reg(0) << 15 | BRANCHES[name] << 12 | 0x63
    if name == "jal":
        imm = num(1) & 0x1FFFFF
        bits = (imm >> 20 & 1) << 31 | (imm >> 1 & 1023) << 21 | (imm >> 11 & 1) << 20 | (imm >> 12 & 255) << 12
        return bits | reg(0) << 7 | 0x6F
    if name == "jalr":
        return (num(1) & 0xFFF) << 20 | reg(2) << 15 | reg(0) << 7 | 0x67
    if name in ("lui", "auipc"):
        return num(1) << 12 | reg(0) << 7 | {"lui": 0x37, "auipc": 0x17}[name]
    return {"fence": 0x0FF0000F, "fence.i": 0x0000100F, "ecall": 0x73, "ebreak": 0x100073}[name]


class Trap(Exception):
    pass


class Machine:
    """The core, its memory, its input and its output."""

    def __init__(self, image, base=BASE, entry=None, heap=None, text=b"", limit=0):
        self.base, self.memory, self.pc = base, bytearray(image), base if entry is None else entry
        self.x = [0] * 32
        self.x[2] = base + len(image) - 16
        self.first = self.brk = base if heap is None else heap
        self.text, self.position, self.output, self.limit = text, 0, b"", limit

    def end(self):
        return self.base + len(self.memory)

    def inside(self, at, count):
        return self.base <= at and at + count <= self.end()

    def get(self, at, count):
        return bytes(self.memory[at - self.base:at - self.base + count])

    def put(self, at, what):
        self.memory[at - self.base:at - self.base + len(what)] = what

    def set(self, index, value):
        if index:
            self.x[index] = value % WORD

    def step(self):
        """The cost, and None or the status of an exit; a Trap where it traps."""
        if not self.inside(self.pc, 4):
            raise Trap("FetchFault")
        word = int.from_bytes(self.get(self.pc, 4), "little")
        code, rd, f3, f7 = word & 127, word >> 7 & 31, word >> 12 & 7, word >> 25
        a, b, after = self.x[word >> 15 & 31], self.x[word >> 20 & 31], (self.pc + 4) % WORD
        imm = signed(word >> 20, 12)
        if code == 0x37:
            self.set(rd, word & 0xFFFFF000)
        elif code == 0x17:
            self.set(rd, self.pc + (word & 0xFFFFF000))
        elif code == 0x6F:
            offset = signed((word >> 31) << 20 | (word >> 12 & 255) << 12 | (word >> 20 & 1) << 11
                            | (word >> 21 & 1023) << 1, 21)
            return self.jump(rd, (self.pc + offset) % WORD)
        elif code == 0x67 and f3 == 0:
            return self.jump(rd, (a + imm) % WORD & ~1)
        elif code == 0x63 and f3 in BRANCHES.values():
            offset = signed((word >> 31) << 12 | (word >> 7 & 1) << 11 | (word >> 25 & 63) << 5
                            | (word >> 8 & 15) << 1, 13)
            less = signed(a) < signed(b) if f3 < 6 else a < b
            if (a == b if f3 < 4 else less) != bool(f3 & 1):
                return self.jump(0, (self.pc + offset) % WORD)
        elif code == 0x03 and f3 in LOADS.values():
            width, at = 1 << (f3 & 3), (a + imm) % WORD
            if at % width:
                raise Trap("LoadMisaligned")
            if not self.inside(at, width):
                raise Trap("LoadFault")
            value = int.from_bytes(self.get(at, width), "little")
            self.set(rd, value if f3 & 4 else signed(value, 8 * width))
            self.pc = after
            return 2, None
        elif code == 0x23 and f3 in STORES.values():
            width, at = 1 << f3, (a + signed(f7 << 5 | rd, 12)) % WORD
            if at % width:
                raise Trap("StoreMisaligned")
            if not self.inside(at, width):
                raise Trap("StoreFault")
            self.put(at, b.to_bytes(4, "little")[:width])
            self.pc = after
            return 2, None
        elif code == 0x13 and (f3 not in (1, 5) or f7 == 0 or (f3, f7) == (5, 32)):
            self.set(rd, self.operate(f3, f7 if f3 in (1, 5) else 0, a, imm % WORD))
        elif code == 0x33 and (f3, f7) in OPS.values():
            self.set(rd, self.operate(f3, f7, a, b))
            self.pc = after
            return (1 if f7 != 1 else 3 if f3 < 4 else 34), None
        elif code == 0x0F and f3 < 2:
            pass
        elif word == 0x73:
            return self.call(after)
        elif word == 0x100073:
            raise Trap("Breakpoint")
        else:
            raise Trap("Illegal")
        self.pc = after
        return 1, None

    def jump(self, rd, target):
        if target % 4:
            raise Trap("FetchMisaligned")
        self.set(rd, self.pc + 4)
        self.pc = target
        return 2, None

    @staticmethod
    def operate(f3, f7, a, b):
        s, t = signed(a), signed(b)
        if f7 == 1:
            whole = abs(s) // abs(t) if t else 0
            quotient = whole if (s < 0) == (t < 0) else -whole
            return [a * b, s * t >> 32, s * b >> 32, a * b >> 32, quotient if b else -1, a // b if b else -1,
                    s - t * quotient if b else a, a % b if b else a][f3]
        return [a - b if f7 else a + b, a << b % 32, int(s < t), int(a < b), a ^ b,
                s >> b % 32 if f7 else a >> b % 32, a | b, a & b][f3]

    def call(self, after):
        file, at, count, number = self.x[10], self.x[11], self.x[12], self.x[17]
        moved, buffer = 0, count == 0 or self.inside(at, count)
        if number == 93:
            return 10, file % 256
        if number in (63, 64):
            if file not in ((0,) if number == 63 else (1, 2)):
                answer = -9
            elif not buffer:
                answer = -14
            elif number == 63:
                part = self.text[self.position:self.position + count]
                self.put(at, part)
                self.position += len(part)
                answer = moved = len(part)
            else:
                if len(self.output) + count > self.limit:
                    raise Trap("OutputLimit")
                self.output += self.get(at, count)
                answer = moved = count
        elif number == 214:
            if self.first <= file <= self.end():
                self.brk = file
            answer = self.brk
        else:
            answer = -38
        self.set(10, answer)
        self.pc = after
        return 10 + moved, None

    def run(self, budget):
        """Finished instructions, how it ended, and the cost of all."""
        cost = 0
        for finished in range(budget):
            try:
                spent, status = self.step()
            except Trap as trap:
                return finished, f"trap(TrapKind::{trap}, {shown(self.pc)})", cost
            cost += spent
            if status is not None:
                return finished + 1, f"exit({status})", cost
        return budget, "GOES_ON", cost


TEXTS = []


def word(text):
    TEXTS.append(text)
    return encode(text)


def in_hex(number):
    return f"0x{number >> 16:04x}_{number & 65535:04x}"


def code(text):
    return in_hex(encode(text))


def codes(texts):
    return ", ".join(map(code, texts))


def shown(number):
    return str(number) if number < 2**16 else in_hex(number)


def image_of(words, first=0, second=0):
    image = bytearray(SIZE)
    for i, w in enumerate(words):
        image[4 * i:4 * i + 4] = w.to_bytes(4, "little")
    image[64:68], image[68:72] = first.to_bytes(4, "little"), second.to_bytes(4, "little")
    image[128:136] = bytes([0xF1, 0x82, 0x73, 0x94, 0x05, 0xB6, 0x67, 0xD8])
    image[SIZE - 8:] = bytes([0x18, 0x29, 0x3A, 0x4B, 0x5C, 0x6D, 0xFE, 0x8F])
    return image


PREFIX = ["lui x4, 1", "lw x5, 64(x4)", "lw x6, 68(x4)"]


def bench(texts, first=0, second=0):
    machine = Machine(image_of([word(t) for t in PREFIX + texts], first, second))
    assert machine.run(3) == (3, "GOES_ON", 5)
    return machine


def arithmetic():
    least, ones = 2**31, WORD - 1
    rows = [(f"{op} x7, x5, x6", x, y) for op, x, y in [
        ("div", 7, 0), ("div", WORD - 7, 0), ("div", 0, 0), ("divu", 7, 0), ("divu", ones, 0), ("rem", 7, 0),
        ("rem", WORD - 7, 0), ("remu", WORD - 7, 0), ("div", least, ones), ("rem", least, ones), ("divu", least, ones),
        ("remu", least, ones), ("div", WORD - 7, 2), ("rem", WORD - 7, 2), ("div", 7, WORD - 2), ("rem", 7, WORD - 2),
        ("mul", ones, ones), ("mulh", ones, ones), ("mulhsu", ones, ones), ("mulhu", ones, ones),
        ("mulh", least, least), ("mulhsu", least, ones), ("mulhu", least, least), ("mulhsu", 2, ones),
        ("add", ones, 2), ("sub", 1, 2), ("sll", 3, 33), ("srl", least, 31), ("sra", least, 31), ("slt", ones, 0),
        ("sltu", ones, 0), ("xor", 0xF0F0F0F0, 0xFF00FF00), ("or", 0xF0F0F0F0, 0xFF00FF00),
        ("and", 0xF0F0F0F0, 0xFF00FF00)]]
    rows += [("addi x7, x5, -1", 0, 0), ("slti x7, x5, -1", WORD - 2, 0), ("sltiu x7, x5, -1", WORD - 2, 0),
             ("xori x7, x5, -1", 0x12345678, 0), ("ori x7, x5, -2048", 1, 0), ("andi x7, x5, -2048", 0x12345FFF, 0),
             ("slli x7, x5, 31", 3, 0), ("srli x7, x5, 31", ones, 0), ("srai x7, x5, 31", least, 0),
             ("lui x7, 0xfffff", 0, 0), ("auipc x7, 0", 0, 0), ("auipc x7, 0xfffff", 0, 0), ("auipc x7, 0xffffe", 0, 0),
             ("fence", 0, 0), ("fence.i", 0, 0), (".word 0x8330000f", 0, 0), (".word 0xfff0928f", 0, 0)]
    # a FENCE and a FENCE.I whose other fields are set are FENCE and FENCE.I
    for text, x, y in rows:
        m = bench([text], x, y)
        (finished, ended, cost), pc = m.run(1), m.pc
        assert (finished, ended, pc) == (1, "GOES_ON", 4112), text
        yield text, f"({code(text)}, {shown(x)}, {shown(y)}, {shown(m.x[7])}, {cost})"


def jumps():
    rows = [(["jal x7, 8"], 0, 0), (["jal x7, -12"], 0, 0), (["jal x0, 0"], 0, 0), (["jalr x7, 0(x5)"], 4116, 0),
            (["jalr x7, 1(x5)"], 4116, 0), (["jalr x7, 0(x5)"], 4117, 0), (["jalr x7, -1(x5)"], 4118, 0),
            (["jalr x5, 0(x5)", "ebreak", "addi x7, x5, 0"], 4116, 0), (["jalr x7, 20(x5)"], WORD - 16, 0),
            (["jal x7, 1044480"], 0, 0)]
    rows += [([f"{op} x5, x6, 8"], x, y) for op in BRANCHES for x, y in [(5, 5), (WORD - 1, 1), (1, WORD - 1)]]
    rows += [(["bne x0, x0, 2"], 0, 0), (["beq x0, x0, -12"], 0, 0), (["bge x0, x0, -4096"], 0, 0)]
    for texts, x, y in rows:
        m = bench(texts, x, y)
        steps = 2 if len(texts) > 1 else 1
        (finished, ended, cost), pc = m.run(steps), m.pc
        assert (finished, ended) == (steps, "GOES_ON"), texts
        left = f"{shown(m.x[7])}, {shown(pc)}, {cost}"
        yield "; ".join(texts), f"(&[{codes(texts)}], {steps}, {shown(x)}, {shown(y)}, {left})"


def accesses():
    end = BASE + SIZE
    for op, number in LOADS.items():
        width = 1 << (number & 3)
        for at in list(range(4224, 4228, width)) + [BASE, end - width]:
            text = f"{op} x7, 0(x5)"
            m = bench([text], at)
            assert m.run(1) == (1, "GOES_ON", 2)
            yield f"{text}", f"(&[{code(text)}], {at}, {in_hex(m.x[7])}, 2)"
    for op, number in STORES.items():
        width = 1 << number
        for at in list(range(4224, 4228, width)) + [BASE, end - width]:
            texts = [f"{op} x6, 0(x5)", f"lw x7, {-(at % 4)}(x5)"]
            m = bench(texts, at, 0xA1B2C3D4)
            assert m.run(2) == (2, "GOES_ON", 4)
            yield "; ".join(texts), f"(&[{codes(texts)}], {at}, {in_hex(m.x[7])}, 4)"
    for text, at in [("lw x7, -1(x5)", 4229), ("lw x7, 1(x5)", 4223)]:
        m = bench([text], at)
        assert m.run(1) == (1, "GOES_ON", 2)
        yield text, f"(&[{code(text)}], {at}, {in_hex(m.x[7])}, 2)"


def traps():
    end = BASE + SIZE
    rows = []
    for op, number in list(LOADS.items()) + list(STORES.items()):
        width = 1 << (number & 3)
        text = f"{op} x7, 0(x5)"
        rows += [(text, at) for at in range(4224, 4228) if at % width]
        rows += [(text, at) for at in range(end - width + 1, end) if width > 1]
        rows += [(text, at) for at in (end, end + 1, BASE - width, BASE - 1, 0, WORD - width, WORD - 1)]
    rows = list(dict.fromkeys(rows))
    rows += [("jal x7, 2", 0), ("jalr x7, 2(x5)", 4116), ("jalr x7, 3(x5)", 4116), ("beq x0, x0, 2", 0),
             ("bge x0, x0, -2", 0), ("ebreak", 0), (".word 0", 0), (".word 0xffffffff", 0), (".word 0x00010001", 0),
             (".word 0x00000501", 0), (".word 0x00001073", 0), (".word 0x00200073", 0),
             (".word 0x02001013", 0), (".word 0x00003003", 0), (".word 0x00003023", 0), (".word 0x00002063", 0),
             (".word 0x00001067", 0), (".word 0x0000200f", 0), (".word 0x04000033", 0)]
    for text, at in rows:
        m = bench([text], at)
        before = (list(m.x), bytes(m.memory))
        finished, ended, cost = m.run(1)
        assert (finished, ended != "GOES_ON", cost, m.pc) == (0, True, 0, 4108), text
        assert before == (list(m.x), bytes(m.memory)), text
        kind = ended[len("trap(TrapKind::"):].split(",")[0]
        yield text, f"({code(text)}, {shown(at)}, TrapKind::{kind})"


CALLS = ["lui x4, 1", "addi x4, x4, 128", "lw x17, 0(x4)", "lw x10, 4(x4)", "lw x11, 8(x4)", "lw x12, 12(x4)", "ecall",
         "addi x4, x4, 16", "jal x0, -24"]


def calls():
    """Each case is a list of calls; the program makes them in a loop."""
    end, text = BASE + SIZE, bytes(i * 7 % 251 for i in range(200))
    cases = [
        [(63, 7, 6144, 1), (64, 7, 6144, 1), (64, 0, 6144, 1), (63, 1, 6144, 1), (63, 0, end - 1, 2),
         (64, 2, end - 1, 2), (63, 0, BASE - 1, 1), (64, 1, WORD - 1, WORD - 1), (63, 7, WORD - 1, WORD - 1),
         (63, 0, WORD - 1, 0), (64, 1, 0, 0), (1000, 5, 6, 7), (0, 5, 6, 7), (WORD - 1, 5, 6, 7), (93, 0x1FF, 0, 0)],
        # the break: below the first, at it, in between, at the memory's end, past it, and where it is now
        [(214, 0, 0, 0), (214, 6159, 0, 0), (214, 6160, 0, 0), (214, 7000, 0, 0), (214, 0, 0, 0), (214, end, 0, 0),
         (214, end + 1, 0, 0), (214, WORD - 1, 0, 0), (214, 6160, 0, 0), (214, 6159, 0, 0), (93, 0, 0, 0)],
        # all 200 bytes of the input in two reads; then none is left; and they are written in two writes
        [(63, 0, 6140, 100), (63, 0, 6240, 1000), (63, 0, 6144, 1000), (64, 1, 6140, 130), (64, 2, 6270, 70),
         (93, 256, 0, 0)],
        # to the memory's last byte and from it
        [(63, 0, end - 200, 200), (64, 1, end - 1, 1), (64, 1, end - 64, 64), (64, 1, end, 1), (93, 1, 0, 0)],
        # up to the limit, and not beyond
        [(64, 1, 7168, 300), (64, 1, 7168, 0), (64, 2, end, 1), (64, 3, 7168, 1), (64, 1, 7168, 1)],
        [(64, 2, 7168, 301)],
        [(64, 1, 7168, 299), (64, 1, 7168, 2)],
    ]
    for case in cases:
        image = image_of([word(t) for t in CALLS])
        for i, row in enumerate(case):
            for j, n in enumerate(row):
                image[128 + 16 * i + 4 * j:132 + 16 * i + 4 * j] = n.to_bytes(4, "little")
        m = Machine(image, heap=6160, text=text, limit=300)
        assert m.run(2) == (2, "GOES_ON", 2)
        print("    &[")
        for row in case:
            assert m.run(4) == (4, "GOES_ON", 8)
            finished, ended, cost = m.run(1)
            given = f"{row[0]}, [{', '.join(map(shown, row[1:]))}]"
            left = f"{ended}, {shown(m.x[10])}, {cost}, {len(m.output)}"
            print(f"        ({given}, {left}),".replace(str(WORD - 1), "u32::MAX"))
            if ended != "GOES_ON":
                break
            assert m.run(2) == (2, "GOES_ON", 3)
        print(f"    ],  // output {m.output[:4].hex()}.. {m.output == text}")


def programs():
    table = [
        (0, 0, ["addi x5, x0, 2", "jalr x0, 0(x5)"], 10),
        (0, 0, ["addi x17, x0, 93", "ecall"], 10),
        (0, 0, ["addi x17, x0, 93", "ecall"], 2),
        (0, 0, ["addi x17, x0, 93", "ecall"], 1),
        (0, 0, ["addi x17, x0, 93", "ecall"], 0),
        (0, 0, ["addi x10, x0, -1", "addi x17, x0, 93", "ecall"], 10),
        (0, 0, ["bne x0, x0, 2", "beq x0, x0, 2"], 10),
        (0, 0, ["addi x0, x0, 5", "add x0, x2, x2", "lui x0, 1", "auipc x0, 1", "jal x0, 4", "lw x0, 0(x0)",
                "mul x0, x2, x2", "divu x0, x2, x2", "auipc x5, 0", "jalr x0, 8(x5)", "slti x0, x0, 1",
                "addi x10, x0, 0", "addi x17, x0, 93", "ecall"], 20),
        # the sum of 10, 9, .. 1
        (0, 0, ["addi x5, x0, 10", "add x10, x10, x5", "addi x5, x5, -1", "bne x5, x0, -8", "addi x17, x0, 93",
                "ecall"], 100),
        # 7 ! by multiplication, and 5040 / 60 % 47
        (0, 0, ["addi x5, x0, 7", "addi x10, x0, 1", "mul x10, x10, x5", "addi x5, x5, -1", "blt x0, x5, -8",
                "addi x6, x0, 60", "div x10, x10, x6", "addi x6, x0, 47", "rem x10, x10, x6", "addi x17, x0, 93",
                "ecall"], 100),
        # x2 is 16 below the memory's end
        (0, 0, ["sw x2, 12(x2)", "lbu x10, 13(x2)", "addi x17, x0, 93", "ecall"], 10),
        (BASE, BASE, ["sw x2, 12(x2)", "lbu x10, 13(x2)", "addi x17, x0, 93", "ecall"], 10),
        # the next word is written before it is fetched
        (BASE, BASE, ["auipc x5, 0", "lw x6, 20(x5)", "sw x6, 12(x5)", ".word 0", "ecall", "addi x17, x0, 93"], 10),
        (0, SIZE - 4, ["addi x0, x0, 0"], 10),
        (BASE, BASE + SIZE - 4, ["addi x0, x0, 0"], 10),
        (BASE, BASE + SIZE - 8, ["fence", "jal x1, -4096"], 10),
        (0, 0, ["lui x5, 0xfffff", "jalr x0, 0(x5)"], 10),
        (0, 0, ["jal x1, 0"], 7),
    ]
    for base, entry, texts, budget in table:
        image = bytearray(SIZE)
        for i, t in enumerate(texts):
            image[entry - base + 4 * i:entry - base + 4 * i + 4] = word(t).to_bytes(4, "little")
        m = Machine(image, base=base, entry=entry)
        finished, ended, cost = m.run(budget)
        yield "; ".join(texts), f"({base}, {entry}, &[{codes(texts)}], {budget}, ({finished}, {ended}, {cost}))"


def compare(assembler):
    """Each word as that assembler has it."""
    def relative(text):
        front, _, offset = text.rpartition(", ")
        return f"{front}, .{int(offset):+d}" if text.split()[0] in BRANCHES or text.startswith("jal ") else text

    texts = list(dict.fromkeys(TEXTS))
    with tempfile.TemporaryDirectory() as place:
        with open(f"{place}/rows.s", "w") as source:
            source.write("".join(relative(text) + "\n" for text in texts))
        flags = ["-march=rv32im_zifencei", "-mabi=ilp32", "-mno-relax"]
        subprocess.run([assembler, *flags, "-o", f"{place}/rows.o", f"{place}/rows.s"], check=True)
        copy = assembler[:-2] + "objcopy"
        subprocess.run([copy, "-O", "binary", "-j", ".text", f"{place}/rows.o", f"{place}/rows.bin"], check=True)
        with open(f"{place}/rows.bin", "rb") as binary:
            code = binary.read()
    for i, text in enumerate(texts):
        found = int.from_bytes(code[4 * i:4 * i + 4], "little")
        assert found == encode(text), (text, hex(found), hex(encode(text)))
    print(f"{len(code) // 4} words are the assembler's", file=sys.stderr)


def main():
    for name, rows in [("arithmetic", arithmetic), ("jumps", jumps), ("accesses", accesses), ("traps", traps),
                       ("programs", programs)]:
        print(f"{name}:")
        before = ""
        for comment, row in rows():
            print(f"    // {comment}\n" * (comment != before) + f"    {row},")
            before = comment
    print("calls:")
    calls()
    if sys.argv[1:2] == ["--assembler"]:
        compare(sys.argv[2])


if __name__ == "__main__":
    main()
