#!/usr/bin/env python3
"""The rows of crates/part_rows on words of instructions and on their results: words by the GNU assembler, results by QEMU. part_rows.py puts them there."""
import itertools

from riscv_files import BRANCHES, GREATEST, IMMEDIATE, LEAST, LOADS, ONES, PC, REGISTER, SHIFTS, STORES
from riscv_files import assembled, emulated, hexes

# Pairs of operands at the corners: zero, one, all ones, the least and the greatest, mixed signs, shifts past the width.
PAIRS = [(0, 0), (1, ONES), (ONES, 1), (LEAST, ONES), (GREATEST, LEAST), (LEAST, 0), (7, 0xFFFF_FFFF_FFFF_FFFD)]
PAIRS += [(0x0123_4567_89AB_CDEF, 65), (0xFFFF_FFFF_8000_0000, 0x1_FFFF_FFFF)]
DATA = 0x40000000
CORNERS = [0, 1, ONES, LEAST, GREATEST, 0x0123_4567_89AB_CDEF, 0xFFFF_FFFF_8000_0000]


def spelled_words():
    """Each row at the ends of its operands: the assembler's text, and the name and the fields of its variant."""
    registers = [(0, 0, 0), (31, 31, 31), (1, 2, 31), (16, 8, 4)]
    for name in REGISTER:
        for d, a, b in registers:
            yield f"{name} x{d}, x{a}, x{b}", (name, dict(rd=d, rs1=a, rs2=b))
    for name in IMMEDIATE + ["jalr"] + LOADS:
        for (d, a, _), imm in zip(registers, [0, -2048, 2047, -1]):
            shown = f"x{a}, {imm}" if name in IMMEDIATE else f"{imm}(x{a})"
            yield f"{name} x{d}, {shown}", (name, dict(rd=d, rs1=a, imm=imm))
    for name, most in SHIFTS.items():
        for (d, a, _), imm in zip(registers, [0, most, 1, most // 2 + 1]):
            yield f"{name} x{d}, x{a}, {imm}", (name, dict(rd=d, rs1=a, imm=imm))
    for name in STORES:
        for (a, b, _), imm in zip(registers, [0, -2048, 2047, -1]):
            yield f"{name} x{b}, {imm}(x{a})", (name, dict(rs1=a, rs2=b, imm=imm))
    for name in BRANCHES:
        for (a, b, _), imm in zip(registers, [0, -4096, 4094, -2]):
            yield f"{name} x{a}, x{b}, .+{imm}", (name, dict(rs1=a, rs2=b, imm=imm))
    for name in ["lui", "auipc"]:
        for (d, _, _), imm in zip(registers, [0, 1048575, 524288, 1]):
            yield f"{name} x{d}, {imm}", (name, dict(rd=d, imm=imm))
    for (d, _, _), imm in zip(registers, [0, -1048576, 1048574, -2]):
        yield f"jal x{d}, .+{imm}", ("jal", dict(rd=d, imm=imm))
    for name in ["ecall", "ebreak"]:
        yield name, (name, {})


def spelled_results():
    """Each row that gives register 12 a value, at operands in registers 10 and 11."""
    for name in REGISTER:
        for pair in PAIRS:
            yield f"{name} x12, x10, x11", pair
    for name in IMMEDIATE:
        for a, imm in zip(CORNERS, itertools.cycle([-1, 0, 2047, -2048, 1])):
            yield f"{name} x12, x10, {imm}", (a, 0)
    for name, most in SHIFTS.items():
        for a, imm in zip(CORNERS, itertools.cycle([0, most, 1, most // 2 + 1])):
            yield f"{name} x12, x10, {imm}", (a, 0)
    for name in ["lui", "auipc"]:
        for imm in [0, 1, 524287, 524288, 1048575, 0x12345]:
            yield f"{name} x12, {imm}", (0, 0)


def spelled_jumps():
    """Branches, and jumps with register 12 as their link; register 10 counts from pc for jalr."""
    pairs = PAIRS[:6] + [(5, 5), (LEAST, GREATEST)]
    for name in BRANCHES:
        for pair, imm in zip(pairs, itertools.cycle([8, -8, 16, -12])):
            yield f"{name} x10, x11, .+{imm}", pair
    for imm in [8, -8, 16, -16, 4, 12]:
        yield f"jal x12, .+{imm}", (0, 0)
    for a, imm in [(8, 0), (16, -8), (9, 0), (0, 13), (2047, -2035), (ONES, -7)]:
        yield f"jalr x12, {imm}(x10)", (a, 0)


def spelled_loads():
    """Loads of a number in memory."""
    for name in LOADS:
        for a in CORNERS + [0x80, 0x8000]:
            yield name, a


def results(folder):
    vectors = list(spelled_results())
    body, operands = "", []
    for k, (text, pair) in enumerate(vectors):
        operands += pair
        body += f"    ld x10, 0(x20)\n    ld x11, 8(x20)\n    la x13, at{k}\nat{k}: {text}\n"
        if text.startswith("auipc"):
            body += "    sub x12, x12, x13\n"
        body += "    sd x12, 0(x21)\n    addi x20, x20, 16\n    addi x21, x21, 8\n"
    values = emulated(folder, body, operands, len(vectors))
    words = assembled(folder, [text for text, _ in vectors])
    return [(w, a, b, v) for w, (_, (a, b)), v in zip(words, vectors, values)]


def jumps(folder):
    """Where each goes: eight instructions on either side call, so that the link of the call tells."""
    vectors = list(spelled_jumps())
    body, operands = "", []
    for k, (text, pair) in enumerate(vectors):
        operands += pair
        sled = f"    jal x31, told{k}\n" * 8
        moved = "    add x10, x10, x13\n" if text.startswith("jalr") else ""
        body += f"    ld x10, 0(x20)\n    ld x11, 8(x20)\n    la x13, at{k}\n{moved}    mv x12, x13\n    j at{k}\n"
        body += f"{sled}at{k}: {text}\n{sled}told{k}:\n"
        body += "    sub x12, x12, x13\n    sub x31, x31, x13\n    addi x31, x31, -4\n"
        body += "    sd x12, 0(x21)\n    sd x31, 8(x21)\n    addi x20, x20, 16\n    addi x21, x21, 16\n"
    values = emulated(folder, body, operands, 2 * len(vectors))
    words = assembled(folder, [text for text, _ in vectors])
    return [(w, a, b, values[2 * k], values[2 * k + 1]) for k, (w, (_, (a, b))) in enumerate(zip(words, vectors))]


def loads(folder):
    vectors = list(spelled_loads())
    body, operands = "", []
    for name, a in vectors:
        operands.append(a)
        body += f"    {name} x12, 0(x20)\n    sd x12, 0(x21)\n    addi x20, x20, 8\n    addi x21, x21, 8\n"
    values = emulated(folder, body, operands, len(vectors))
    words = assembled(folder, [f"{name} x12, 0(x10)" for name, _ in vectors])
    return [(w, a, v) for w, (_, a), v in zip(words, vectors, values)]


def instruction(name, operands):
    """An instruction as the program shows it."""
    fields = ", ".join(f"{field}: {value}" for field, value in operands.items())
    return name.capitalize() + (f" {{ {fields} }}" if fields else "")


# Words that are no instruction of the table.
RESERVED = {
    0x00000000: "all zeros",
    0x0000000F: "FENCE",
    0x0000100F: "FENCE.I",
    0xFFFFFFFF: "all ones",
    0x00001067: "JALR with funct3 001",
    0x00002063: "a branch with funct3 010",
    0x00007003: "a load with funct3 111",
    0x00004023: "a store with funct3 100",
    0x04001013: "SLLI with a bit set above its amount",
    0x0200101B: "SLLIW with an amount of 32",
    0x40001033: "SLL with funct7 0100000",
    0x04000033: "ADD with funct7 0000010",
    0x0200103B: "funct3 001 of the word multiplications",
    0x00200073: "URET",
    0x000000F3: "ECALL with rd 1",
}


def cases(folder):
    spelled = list(spelled_words())
    words = assembled(folder, [text for text, _ in spelled])
    for word, (_, (name, operands)) in zip(words, spelled):
        yield f"word {word:x}", f"{instruction(name, operands)} true"
    yield from ((f"word {word:x}", "none") for word in RESERVED)
    for word, a, b, value in results(folder):
        # what auipc gives counts from pc, here as in the emulator
        yield f"step {hexes((word, 10, a, 11, b, 12))}", hexes(((value + PC * (word % 128 == 0b0010111)) % 2**64, 4))
    for word, a, b, link, goes in jumps(folder):
        from_pc = a + PC * (word % 128 == 0b1100111)
        yield f"step {hexes((word, 10, from_pc % 2**64, 11, b, 12))}", hexes((link and link + PC, goes))
    for word, holds, value in loads(folder):
        yield f"access {hexes((word, 10, DATA, 0, 0, 12, DATA, holds))}", hexes((value, holds))
