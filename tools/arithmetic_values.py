#!/usr/bin/env python3
"""Prints the rows of the tests of rv32_arithmetic, computed over Python's whole numbers by the rules of the RISC-V
unprivileged manual (RV32I 2.1 and M 2.0). The rows under 'told apart' are operands on which an operation's answer is no
other operation's.
"""
import random

WORD = 2**32
MINUS_1, MINUS_2, MINUS_7 = WORD - 1, WORD - 2, WORD - 7
LEAST, GREATEST = 2**31, 2**31 - 1
ODD, MIXED = 0x80000081, (0x12345678, 0x9ABCDEF0)


def signed(x, bits=32):
    return x - 2**bits if x >= 2 ** (bits - 1) else x


def toward_zero(x, y):
    quotient = abs(x) // abs(y)
    return quotient if (x < 0) == (y < 0) else -quotient


def remainder(x, y):
    return x - y * toward_zero(x, y)


REGISTERS = {
    "Add": lambda x, y: x + y,
    "Sub": lambda x, y: x - y,
    "Sll": lambda x, y: x << y % 32,
    "Slt": lambda x, y: int(signed(x) < signed(y)),
    "Sltu": lambda x, y: int(x < y),
    "Xor": lambda x, y: x ^ y,
    "Srl": lambda x, y: x >> y % 32,
    "Sra": lambda x, y: signed(x) >> y % 32,
    "Or": lambda x, y: x | y,
    "And": lambda x, y: x & y,
    "Mul": lambda x, y: x * y,
    "Mulh": lambda x, y: signed(x) * signed(y) >> 32,
    "Mulhsu": lambda x, y: signed(x) * y >> 32,
    "Mulhu": lambda x, y: x * y >> 32,
    "Div": lambda x, y: toward_zero(signed(x), signed(y)) if y else -1,
    "Divu": lambda x, y: x // y if y else -1,
    "Rem": lambda x, y: remainder(signed(x), signed(y)) if y else x,
    "Remu": lambda x, y: x % y if y else x,
}

BRANCHES = {
    "Beq": lambda x, y: x == y,
    "Bne": lambda x, y: x != y,
    "Blt": lambda x, y: signed(x) < signed(y),
    "Bge": lambda x, y: signed(x) >= signed(y),
    "Bltu": lambda x, y: x < y,
    "Bgeu": lambda x, y: x >= y,
}

ENDS = [(LEAST, GREATEST), (GREATEST, LEAST), (MINUS_1, 0), (0, MINUS_1), (5, 5), (4, 5)]
AMOUNTS = [(ODD, amount) for amount in (0, 1, 31, 32, 33, MINUS_1)]
FACTORS = [(MINUS_1, MINUS_1), (LEAST, LEAST), (LEAST, MINUS_1), (MINUS_7, 3), (3, MINUS_7), (GREATEST, GREATEST),
           MIXED]
SIGNED_QUOTIENTS = [(7, 0), (MINUS_7, 0), (0, 0), (LEAST, MINUS_1), (GREATEST, MINUS_1), (MINUS_7, 2), (7, MINUS_2),
                    (MINUS_7, MINUS_2), (7, 2), (LEAST, GREATEST)]
UNSIGNED_QUOTIENTS = [(7, 0), (MINUS_1, 0), (LEAST, MINUS_1), (MINUS_7, 2), (7, MINUS_2), (MINUS_1, 3)]

IMMEDIATES = [
    ("Addi", [(0, -1), (MINUS_1, 1), (GREATEST, 2047), (5, -2048)]),
    ("Slti", [(LEAST, -2048), (WORD - 2048, -2048), (5, -1), (MINUS_1, 0)]),
    ("Sltiu", [(5, -1), (MINUS_1, -1), (WORD - 2049, -2048), (WORD - 2048, -2048), (MINUS_1, 2047), (0, 1), (1, 1)]),
    ("Xori", [(MIXED[0], -1)]),
    ("Ori", [(MIXED[0], -2048)]),
    ("Andi", [(MIXED[0], -16), (MINUS_1, 2047)]),
    ("Slli", [(ODD, 0), (ODD, 31)]),
    ("Srli", [(ODD, 31)]),
    ("Srai", [(ODD, 0), (ODD, 1), (ODD, 31)]),
]

TARGETS = [(0, -4), (MINUS_1, 1), (WORD - 4, 8), (2**16, -4096), (2**16, 1048574), (GREATEST, GREATEST),
           (LEAST, -LEAST), (7, -2), (7, 0), (7, 1), (MINUS_1, 0), (0, -1)]


def shown(value):
    """A word of the tests: in decimal if it is short, and else in hexadecimal, in groups of four digits."""
    if value < 100:
        return str(value)
    return f"0x{value >> 16:04x}_{value % 2**16:04x}"


FORMS = {"Addi": "Add", "Slti": "Slt", "Sltiu": "Sltu", "Xori": "Xor", "Ori": "Or", "Andi": "And", "Slli": "Sll",
         "Srli": "Srl", "Srai": "Sra"}

# each load, with how many bytes it has and whether their sign is extended
LOADS = {"Lb": (1, True), "Lh": (2, True), "Lw": (4, False), "Lbu": (1, False), "Lhu": (2, False)}
STORES = {"Sb": 1, "Sh": 2, "Sw": 4}

# operands that are equal, of which the first is less both ways, neither way, signed alone, and unsigned alone
BRANCHED = [(5, 5), (MINUS_7, MINUS_7), (4, 5), (5, 4), (MINUS_7, MINUS_2), (LEAST, GREATEST), (GREATEST, LEAST),
            (MINUS_1, 0), (0, MINUS_1)]


def operands(choice):
    """Any word, one near either end of a reading, or a small one."""
    near = choice.randrange(2**choice.randrange(5, 20))
    return choice.choice([choice.randrange(WORD), WORD - 1 - near, LEAST + near, GREATEST - near, near])


def told_apart(name, count, second):
    """The first pairs of operands, of so many, on which the operation answers what no other does."""
    choice = random.Random(name)
    while count > 0:
        x, y = operands(choice), second(choice)
        answers = {other: operation(x, y % WORD) % WORD for other, operation in REGISTERS.items()}
        if list(answers.values()).count(answers[name]) == 1:
            count -= 1
            yield x, y, answers[name]


def all_told_apart():
    for name in REGISTERS:
        for x, y, answer in told_apart(name, 3, operands):
            print(f"(RegOp::{name}, {shown(x)}, {shown(y)}, {shown(answer)}),")
    for name, form in FORMS.items():
        least, end = (1, 32) if name in ("Slli", "Srli", "Srai") else (-2048, 2048)
        for x, immediate, answer in told_apart(form, 3, lambda choice: choice.randrange(least, end)):
            print(f"(ImmOp::{name}, RegOp::{form}, {shown(x)}, {immediate:_}, {shown(answer)}),")
    for word in (0x9ABCF0F1, 0x808190FE, 0x7FFF8080):
        for name, (width, extends) in LOADS.items():
            loaded = word % 256**width
            answer = signed(loaded, 8 * width) % WORD if extends else loaded
            print(f"(LoadOp::{name}, {shown(word)}, {shown(answer)}),")
        for name, width in STORES.items():
            print(f"(StoreOp::{name}, {shown(word)}, {shown(word % 256**width)}),")
    for x, y in BRANCHED:
        taken = ", ".join(str(is_taken(x, y)).lower() for is_taken in BRANCHES.values())
        print(f"({shown(x)}, {shown(y)}, [{taken}]),")


def registers(names, pairs):
    for name in names:
        for x, y in pairs:
            answer = REGISTERS[name](x, y) % WORD
            print(f"(RegOp::{name}, {shown(x)}, {shown(y)}, {shown(answer)}),")


def main():
    print("sums and comparisons")
    registers(["Add"], [(MINUS_1, 1), (GREATEST, 1), MIXED])
    registers(["Sub"], [(0, 1), (LEAST, 1), (7, 7)])
    registers(["Xor", "Or", "And"], [(0xFF00FF00, 0x0FF00FF0)])
    registers(["Slt", "Sltu"], ENDS)
    print("shifts")
    registers(["Sll", "Srl", "Sra"], AMOUNTS)
    registers(["Srl", "Sra"], [(0x40000081, 33)])
    registers(["Sll", "Srl"], [(MINUS_1, 0xFFFFFFE4)])
    print("products")
    registers(["Mul", "Mulh", "Mulhsu", "Mulhu"], FACTORS)
    print("quotients")
    registers(["Div", "Rem"], SIGNED_QUOTIENTS)
    registers(["Divu", "Remu"], UNSIGNED_QUOTIENTS)
    print("immediates")
    for name, pairs in IMMEDIATES:
        form = name[:-2] + "u" if name == "Sltiu" else name[:-1]
        for x, immediate in pairs:
            answer = REGISTERS[form](x, immediate % WORD) % WORD
            print(f"(ImmOp::{name}, {shown(x)}, {immediate:_}, {shown(answer)}),")
    print("branches")
    for name, is_taken in BRANCHES.items():
        for x, y in [(MINUS_1, MINUS_1), (LEAST, GREATEST), (GREATEST, LEAST), (0, MINUS_1), (MINUS_1, 0)]:
            print(f"(BranchOp::{name}, {shown(x)}, {shown(y)}, {str(is_taken(x, y)).lower()}),")
    print("targets")
    for start, offset in TARGETS:
        target = (start + offset) % WORD
        print(f"({shown(start)}, {offset:_}, {shown(target)}, {shown(target - target % 2)}),")
    print("loads")
    for bits, values in ((8, (0, 0x7F, 0x80, 0xAA, 0xFF)), (16, (0, 0x80, 0x7FFF, 0x8000, 0xAAAA, 0xFFFF))):
        for value in values:
            print(f"(0x{value:0{bits // 4}x}, {shown(signed(value, bits) % WORD)}),")
    print("told apart")
    all_told_apart()


if __name__ == "__main__":
    main()
